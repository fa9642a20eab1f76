//! All words of so many letters in H, S, T and W, by their matrices: whether one
//! has fewer T than the answers for its matrix and for the jobs that it meets.

use std::collections::HashMap;
use std::io::{self, Read, Write};
use std::process::{Command, Stdio};
use std::thread;

use crate::entry;
use crate::job::{self, encode, Job, ELLIPSE, RECTANGLE, SCALE};
use crate::member::{Membership, Point};
use crate::random::Random;

/// Lines that a console is given at a time.
const LINES: usize = 1_000;

impl Point {
    fn plus(self, v: Point) -> Point {
        Point { a: self.a + v.a, b: self.b + v.b, c: self.c + v.c, d: self.d + v.d }
    }

    /// Times ω.
    fn turned(self) -> Point {
        Point { a: self.b, b: self.c, c: self.d, d: -self.a }
    }

    /// Times ω^n.
    fn turned_by(self, n: u32) -> Point {
        (0..n).fold(self, |v, _| v.turned())
    }

    /// The complex conjugate.
    fn dagger(self) -> Point {
        Point { a: -self.c, b: -self.b, c: -self.a, d: self.d }
    }
}

/// The rows (u, x) and (t, y) over √2^k, with the least k.
#[derive(Clone, Copy, PartialEq, Eq, Hash)]
struct Matrix {
    k: u32,
    u: Point,
    x: Point,
    t: Point,
    y: Point,
}

impl Matrix {
    fn one() -> Self {
        let [zero, one] = [0, 1].map(|d| Point { a: 0, b: 0, c: 0, d });
        Matrix { k: 0, u: one, x: zero, t: zero, y: one }
    }

    /// A letter times the matrix.
    fn after(self, letter: u8) -> Self {
        let Matrix { k, u, x, t, y } = self;
        match letter {
            b'H' => {
                let [s, z] = [t, y].map(Point::negative);
                let sum =
                    Matrix { k: k + 1, u: u.plus(t), x: x.plus(y), t: u.plus(s), y: x.plus(z) };
                sum.reduced()
            }
            b'S' => Matrix { t: t.turned_by(2), y: y.turned_by(2), ..self },
            b'T' => Matrix { t: t.turned(), y: y.turned(), ..self },
            _ => self.phased(1),
        }
    }

    /// ω^n times the matrix.
    fn phased(self, n: u32) -> Self {
        let [u, x, t, y] = [self.u, self.x, self.t, self.y].map(|v| v.turned_by(n));
        Matrix { k: self.k, u, x, t, y }
    }

    fn reduced(self) -> Self {
        let Matrix { k, u, x, t, y } = self;
        match [u, x, t, y].map(Point::over_root2) {
            [Some(u), Some(x), Some(t), Some(y)] if k > 0 => {
                Matrix { k: k - 1, u, x, t, y }.reduced()
            }
            _ => self,
        }
    }

    /// The l of the determinant ω^l, which is where y = ω^l u† and x = −ω^l t†.
    fn determinant(self) -> u32 {
        let fits = |l: &u32| {
            self.y == self.u.dagger().turned_by(*l)
                && self.x == self.t.dagger().turned_by(*l).negative()
        };
        (0..8).find(fits).expect("a unitary matrix")
    }

    /// The pulse count of u.
    fn pulses(self) -> u32 {
        pulse_count(self.u.exponent(self.k))
    }

    /// Without its phase, of determinant 1, where there is such a phase: one of
    /// two, the other is its negative.
    fn special(self) -> Option<Self> {
        let l = self.determinant();
        (l % 2 == 0).then(|| self.phased(8 - l / 2))
    }
}

/// Whether a pattern program's answer is that of u and t over √2^k: its lines, and
/// a word whose product is the matrix U or TUT† that it names, with m T.
pub fn is_pattern(answer: &[u8], k: u32, u: Point, t: Point) -> bool {
    let spelled = |v: Point| format!("{} {} {} {}", v.a, v.b, v.c, v.d);
    let m = pulse_count(u.exponent(k));
    let front = format!("scale {k}\nu {}\nt {}\nm {m}\nof ", spelled(u), spelled(t));
    let Some(rest) = answer.strip_prefix(front.as_bytes()) else {
        return false;
    };
    let (rest, t) = match (rest.strip_prefix(b"U\nword "), rest.strip_prefix(b"TUT\nword ")) {
        (Some(rest), _) => (rest, t),
        (_, Some(rest)) => (rest, t.turned()),
        _ => return false,
    };
    let Some(shown) = rest.strip_suffix(b"\n") else {
        return false;
    };
    let word = if shown == b"-" { b"" } else { shown };
    let product = word.iter().rev().fold(Matrix::one(), |matrix, &letter| matrix.after(letter));
    let wanted = Matrix { k, u, x: t.dagger().negative(), t, y: u.dagger() }.reduced();
    let ts = word.iter().filter(|&&letter| letter == b'T').count();
    word.iter().all(|letter| b"HSTW".contains(letter)) && product == wanted && ts == m as usize
}

fn pulse_count(e: u32) -> u32 {
    (2 * e).saturating_sub(2)
}

/// The matrices of all words of up to so many letters, each with its fewest T,
/// and the number of words.
fn all(letters: u32) -> (HashMap<Matrix, u32>, u64) {
    let mut level = HashMap::from([(Matrix::one(), 0)]);
    let mut found = level.clone();
    let mut words = 1;
    for n in 1..=letters {
        let mut next = HashMap::new();
        for (matrix, ts) in level {
            for letter in *b"HSTW" {
                let ts = ts + u32::from(letter == b'T');
                for map in [&mut next, &mut found] {
                    let least = map.entry(matrix.after(letter)).or_insert(ts);
                    *least = ts.min(*least);
                }
            }
        }
        level = next;
        words += 4_u64.pow(n);
    }
    (found, words)
}

/// A console's answers to lines.
fn answers(console: &str, lines: &[String]) -> io::Result<Vec<String>> {
    let mut answers = Vec::new();
    for some in lines.chunks(LINES) {
        let mut child =
            Command::new(console).stdin(Stdio::piped()).stdout(Stdio::piped()).spawn()?;
        let mut input = child.stdin.take().expect("a pipe");
        let script = some.join("\n") + "\n";
        let writer = thread::spawn(move || input.write_all(script.as_bytes()));
        let mut text = String::new();
        child.stdout.take().expect("a pipe").read_to_string(&mut text)?;
        writer.join().expect("no panic")?;
        child.wait()?;
        answers.extend(text.lines().map(String::from));
    }
    Ok(answers)
}

fn numbers(v: Point) -> String {
    format!("{} {} {} {}", v.a, v.b, v.c, v.d)
}

fn ts(word: &str) -> u32 {
    word.bytes().filter(|&letter| letter == b'T').count() as u32
}

/// Of determinant 1 up to a phase no matrix has a word with fewer T than m; of
/// the others none has one with fewer than m − 1.
fn matrices(found: &HashMap<Matrix, u32>) -> String {
    let (special, odd): (Vec<_>, Vec<_>) = found.iter().partition(|(m, _)| m.special().is_some());
    let fewer = special.iter().filter(|(m, &ts)| ts < m.pulses()).count();
    let spared = odd.iter().filter(|(m, &ts)| ts + 1 == m.pulses()).count();
    let fewer_odd = odd.iter().filter(|(m, &ts)| ts + 1 < m.pulses()).count();
    format!(
        "determinant 1 up to a phase: {} matrices, with fewer T than m: {fewer}\n\
         other determinants: {} matrices, with m - 1 T: {spared}, with fewer: {fewer_odd}",
        special.len(),
        odd.len(),
    )
}

/// Nor has one fewer T than the word that a console gives for it, and the word
/// that is handed back has m.
fn asked_words(found: &HashMap<Matrix, u32>, console: &str) -> io::Result<String> {
    let special: Vec<(Matrix, u32)> =
        found.iter().filter_map(|(m, &ts)| Some((m.special()?, ts))).collect();
    let lines: Vec<String> = special
        .iter()
        .map(|(m, _)| format!("word {} {} {} 128 128", m.k, numbers(m.u), numbers(m.t)))
        .collect();
    let agrees = |answer: &str, m: Matrix, least: u32| match answer.split(' ').collect::<Vec<_>>()[..]
    {
        ["ok", handed, first, _] => ts(handed) == m.pulses() && ts(first) <= least,
        _ => false,
    };
    let answers = answers(console, &lines)?;
    let agreed = answers
        .iter()
        .zip(&special)
        .filter(|(answer, (m, least))| agrees(answer, *m, *least))
        .count();
    Ok(format!(
        "words of the console: {}, with exceptions: {}",
        special.len(),
        special.len() - agreed
    ))
}

/// A rectangle close around a point over √2^k.
fn around(random: &mut Random, v: Point, k: u32) -> Vec<u8> {
    let n = random.between(1, 100);
    let root = 2_f64.sqrt();
    let scale = n as f64 / root.powi(k as i32 + 1);
    let ends = v.parts().map(|part| {
        let middle = ((part.p as f64 + part.q as f64 * root) * scale).floor() as i64;
        [middle - random.between(0, 2), middle + 1 + random.between(0, 2)]
    });
    encode(RECTANGLE, &[n, ends[0][0], ends[0][1], ends[1][0], ends[1][1]])
}

/// A job around what a word spells, with another scale; B is the unit disk, or
/// close around the conjugate.
fn random_job(random: &mut Random, m: Matrix) -> [Vec<u8>; 3] {
    let scale = encode(SCALE, &[random.between(0, 5)]);
    let a = around(random, m.u, m.k);
    let b = if random.once_in(2) {
        encode(ELLIPSE, &[1, 0, 0, 1, 0, 1, 1])
    } else {
        around(random, m.u.seen_by_b(m.k), m.k)
    };
    [scale, a, b]
}

fn random_jobs(found: &[(Matrix, u32)], count: usize, seed: u64) -> Vec<[Vec<u8>; 3]> {
    let mut random = Random::new(seed);
    let mut job = || {
        let (m, _) = found[random.index(found.len())];
        random_job(&mut random, m)
    };
    (0..count).map(|_| job()).collect()
}

/// The scale of a job's shortest pattern.
fn scale_of(records: &[Vec<u8>; 3]) -> Option<u32> {
    let job = job::read(&records.concat()).expect("a job");
    entry::shortest(&job).map(|(k, _, _)| k)
}

/// No word that meets a job has fewer T than the answer's m, or than the next
/// scale's where there is no pattern up to the job's.
fn jobs(found: &[(Matrix, u32)], jobs: &[[Vec<u8>; 3]]) -> String {
    let deepest = found.iter().map(|(m, _)| m.k).max().unwrap_or(0);
    let (mut patterns, mut met, mut fewer) = (0, 0_u64, 0_u64);
    for records in jobs {
        let job = job::read(&records.concat()).expect("a job");
        let scale = scale_of(records);
        patterns += usize::from(scale.is_some());
        let least = pulse_count(scale.unwrap_or(job.k + 1));
        let tests: Vec<Membership> =
            (0..=deepest).map(|k| Membership::new(&Job { k, ..job })).collect();
        for &(m, ts) in found {
            let holds = |v: Point| tests[m.k as usize].holds(v);
            let special = m.special().is_some_and(|m| holds(m.u) || holds(m.u.negative()));
            met += u64::from(special || holds(m.u));
            fewer += u64::from(special && ts < least || holds(m.u) && ts + ts % 2 < least);
        }
    }
    format!(
        "jobs: {}, with a pattern: {patterns}, met by a matrix: {met} times, with fewer T: {fewer}",
        jobs.len(),
    )
}

/// A console's answers to the same jobs are the peer's.
fn asked_jobs(jobs: &[[Vec<u8>; 3]], console: &str) -> io::Result<String> {
    let hex = |bytes: &Vec<u8>| bytes.iter().map(|byte| format!("{byte:02x}")).collect::<String>();
    let script = |records: &[Vec<u8>; 3]| {
        let [scale, a, b] = records.each_ref().map(|record| format!("read {}", hex(record)));
        ["clear".into(), scale, a, b, "shortest".into()]
    };
    let lines: Vec<String> = jobs.iter().flat_map(script).collect();
    let answers = answers(console, &lines)?;
    let agrees = |answer: &str, scale: Option<u32>| match scale {
        Some(scale) => answer.starts_with(&format!("ok {scale} ")),
        None => answer == "refused 14",
    };
    let last = answers.chunks(5).filter_map(|five| five.get(4));
    let agreed =
        last.zip(jobs).filter(|(answer, records)| agrees(answer, scale_of(records))).count();
    Ok(format!("jobs of the console: {}, with exceptions: {}", jobs.len(), jobs.len() - agreed))
}

/// What all words of up to so many letters show, beside the peer's answers and
/// those of a console, if one is given.
pub fn report(letters: u32, count: usize, seed: u64, console: Option<&str>) -> io::Result<String> {
    let (found, words) = all(letters);
    let mut sorted: Vec<(Matrix, u32)> = found.iter().map(|(&m, &ts)| (m, ts)).collect();
    sorted.sort_unstable_by_key(|(m, _)| (m.k, m.u, m.t, m.x));
    let random = random_jobs(&sorted, count, seed);
    let head = format!("words: {words}, matrices: {}", found.len());
    let mut lines = vec![head, matrices(&found), jobs(&sorted, &random)];
    if let Some(console) = console {
        lines.extend([asked_words(&found, console)?, asked_jobs(&random, console)?]);
    }
    Ok(lines.join("\n"))
}
