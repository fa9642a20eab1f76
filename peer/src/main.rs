//! A second, independent list program, with a few modes for comparing.

mod adversary;
mod bench;
mod bounds;
mod bytes;
mod entry;
mod files;
mod generate;
mod job;
mod line;
mod lines;
mod member;
mod pack;
mod random;
mod root2;
mod session;
mod t_count;
#[cfg(test)]
mod tests;
mod timing;
mod tray;
mod walk;
mod wording;
mod words;

use std::env;
use std::error::Error;
use std::fmt::Display;
use std::fs;
use std::io::{self, BufWriter, Read, Write};
use std::ops::{ControlFlow, RangeInclusive};
use std::path::Path;
use std::process::ExitCode;
use std::str::FromStr;
use std::time::Instant;

use adversary::Adversary;
use generate::Generator;
use job::{encode, Job, ELLIPSE, OPERATOR, RECTANGLE, SCALE, SELECTION, SLICE};
use lines::Lines;
use member::Point;
use session::Session;
use timing::Console;
use tray::Trays;
use walk::Walk;

const LONGEST_INPUT: usize = 65_536;

const USAGE: &str = "usage: peer [list | count | first] < job
       peer part LO HI < job
       peer line NA LO HI NB LO HI [A B]
       peer sign P Q
       peer entry K A B C D
       peer shortest < job
       peer session < calls
       peer t-count LETTERS JOBS SEED [CONSOLE]
       peer words SEED COUNT
       peer gen SEED COUNT DIR
       peer pack < words > job
       peer show < job
       peer text SEED
       peer qasm < word
       peer unqasm < file
       peer pattern JOB < answer
       peer jobs DIR
       peer noise
       peer time CONSOLE SEED COUNT LEAST MOST SLICES LIMIT [CALL]
       peer bytes PROGRAM FROM TO STEP";

type Outcome = Result<(), Box<dyn Error>>;

fn main() -> ExitCode {
    let arguments: Vec<String> = env::args().skip(1).collect();
    match run(&arguments) {
        Ok(()) => ExitCode::SUCCESS,
        Err(error) => {
            eprintln!("{error}");
            ExitCode::FAILURE
        }
    }
}

fn run(arguments: &[String]) -> Outcome {
    let (mode, rest) = match arguments.split_first() {
        None => ("list", arguments),
        Some((mode, rest)) => (mode.as_str(), rest),
    };
    match (mode, rest) {
        ("list", []) => list(&input()?, io::stdout().lock()),
        ("part", [low, high]) => {
            let range = number::<i32>(low)?.into()..=number::<i32>(high)?.into();
            with_job(|job| part(job, range))
        }
        ("count", []) => with_job(count),
        ("first", []) => with_job(first),
        ("shortest", []) => with_job(shortest),
        ("session", []) => session(),
        ("line", _) => line(&numbers(rest)?),
        ("entry", _) => entry(&numbers(rest)?),
        ("sign", [p, q]) => {
            let [p, q] = [p, q].map(|text| number::<i128>(text));
            say(root2::sign(p?, q?))
        }
        ("t-count", [letters, jobs, seed, console @ ..]) if console.len() < 2 => {
            let console = console.first().map(String::as_str);
            say(t_count::report(number(letters)?, number(jobs)?, number(seed)?, console)?)
        }
        ("gen", [seed, count, directory]) => {
            generate(number(seed)?, number(count)?, Path::new(directory))
        }
        ("pack", []) => put(&pack::pack(&all_input()?)),
        ("show", []) => show(&all_input()?),
        ("text", [seed]) => put(&pack::text(number(seed)?)),
        ("qasm", []) => put(&files::qasm(&all_input()?)),
        ("unqasm", []) => put(&files::unqasm(&all_input()?)),
        ("pattern", [job]) => pattern(&fs::read(job)?, &all_input()?),
        ("jobs", [directory]) => write_jobs(Path::new(directory)),
        ("noise", []) => noise(),
        ("time", [console, seed, count, least, most, slices, limit, calls @ ..])
            if calls.len() < 2 =>
        {
            let scales = [number(least)?, number(most)?];
            let adversary = Adversary::new(number(seed)?, scales, number(slices)?);
            time(console, adversary, number(count)?, number(limit)?, calls.first())
        }
        ("words", [seed, count]) => wording::print(number(seed)?, number(count)?),
        ("bytes", [program, from, to, step]) => {
            check_bytes(program, number(from)?, number(to)?, number(step)?)
        }
        _ => Err(USAGE.into()),
    }
}

fn number<T: FromStr>(text: &str) -> Result<T, Box<dyn Error>> {
    text.parse().map_err(|_| format!("not a number in range: {text}").into())
}

fn numbers(texts: &[String]) -> Result<Vec<i64>, Box<dyn Error>> {
    texts.iter().map(|text| number(text)).collect()
}

fn say(text: impl Display) -> Outcome {
    Ok(writeln!(io::stdout(), "{text}")?)
}

/// Standard input, up to one byte more than it may have.
fn input() -> io::Result<Vec<u8>> {
    let mut input = Vec::new();
    io::stdin().lock().take(LONGEST_INPUT as u64 + 1).read_to_end(&mut input)?;
    Ok(input)
}

/// The job that an input spells, or what is printed instead of its list.
fn job_of(input: &[u8]) -> Result<Job, String> {
    if input.len() > LONGEST_INPUT {
        return Err("too long".into());
    }
    job::read(input).map_err(|refusal| format!("refused {} at {}", refusal.number, refusal.at))
}

/// Reads a job from standard input and hands it on; a refusal is printed.
fn with_job(act: impl FnOnce(&Job) -> Outcome) -> Outcome {
    match job_of(&input()?) {
        Ok(job) => act(&job),
        Err(instead) => say(instead),
    }
}

/// What the list program prints for bytes of every length up to 70,000: n of
/// them from place n on, of a generator that makes a quarter of them small.
/// For every third length records stand in their place.
fn noise() -> Outcome {
    let mut x: u32 = 1;
    let bytes: Vec<u8> = std::iter::repeat_with(|| {
        x = x.wrapping_mul(1_664_525).wrapping_add(1_013_904_223);
        let byte = (x >> 24) as u8;
        if (x >> 16) % 4 == 0 {
            byte % 8
        } else {
            byte
        }
    })
    .take(140_000)
    .collect();
    let mut out = io::BufWriter::new(io::stdout().lock());
    for n in 0..=70_000 {
        let random = &bytes[n..2 * n];
        if n % 3 == 0 {
            list(&spoiled_records(random), &mut out)?;
        } else {
            list(random, &mut out)?;
        }
    }
    Ok(out.flush()?)
}

/// As many bytes as there are random ones: a job, then operators. One byte is
/// changed by the random ones where the last record is cut off.
fn spoiled_records(random: &[u8]) -> Vec<u8> {
    let n = random.len();
    let square = |n, x, y| encode(RECTANGLE, &[n, x, x + n / 100, y, y + n / 100]);
    let disk = encode(ELLIPSE, &[1, 0, 0, 1, 0, 1, 1]);
    let (new, all) = (encode(SELECTION, &[0]), encode(SELECTION, &[1]));
    let job = match n / 3 % 5 {
        0 => vec![encode(SCALE, &[0]), disk.clone(), disk],
        1 => vec![
            encode(SCALE, &[1]),
            all,
            encode(RECTANGLE, &[2, -2, 3, -1, 2]),
            encode(ELLIPSE, &[1, 0, 1, 2, 1, 1, 2]),
        ],
        2 => vec![encode(SCALE, &[20]), all, square(4, 3, -1), square(100, 74, -26)],
        3 => vec![encode(SCALE, &[2]), encode(SLICE, &[2, 1, 1, 2]), disk],
        _ => vec![encode(SCALE, &[3]), new, disk, encode(SLICE, &[3, 1, -2, 5])],
    };
    let mut records = job.concat();
    let operators =
        [encode(OPERATOR, &[0, 0, 0, 1, -1, 1, 1, 0]), encode(OPERATOR, &[0, 0, 0, 1, 0, 1, 0, 2])];
    let mut last = records.len();
    for operator in operators.iter().cycle() {
        if records.len() >= n {
            break;
        }
        records.extend_from_slice(operator);
        last = records.len();
    }
    records.truncate(n);
    if last != n {
        if let [x, y, z, half, byte, ..] = *random {
            let x = usize::from(x) * 65_536 + usize::from(y) * 256 + usize::from(z);
            let place = if half < 128 { x % 61 } else { x };
            records[place % n] = byte;
        }
    }
    records
}

/// Prints the scale, u and t of a job's shortest pattern.
fn shortest(job: &Job) -> Outcome {
    match entry::shortest(job) {
        None => say("refused 14"),
        Some((k, u, t)) => {
            let [u, t] = [u, t].map(|Point { a, b, c, d }| format!("{a} {b} {c} {d}"));
            say(format!("{k} {u} {t}"))
        }
    }
}

/// Answers lines of calls as a console does, those of a session alone.
fn session() -> Outcome {
    let (mut session, mut trays) = (Session::default(), Trays::default());
    for line in io::stdin().lines() {
        let line = line?;
        if !line.is_empty() && !line.starts_with('#') {
            let answer = session.answer(&line).or_else(|| trays.answer(&line));
            say(answer.unwrap_or_else(|| "bad line".into()))?;
        }
    }
    Ok(())
}

/// All w that make, with v, the first column of a unitary matrix at scale k.
fn entry(numbers: &[i64]) -> Outcome {
    let &[k, a, b, c, d] = numbers else {
        return Err(USAGE.into());
    };
    if !(0..=20).contains(&k) {
        return say("refused 4");
    }
    let mut out = BufWriter::new(io::stdout().lock());
    for Point { a, b, c, d } in entry::all(k as u32, Point { a, b, c, d }) {
        writeln!(out, "{a} {b} {c} {d}")?;
    }
    Ok(out.flush()?)
}

/// Writes what the list program prints for an input.
fn list(input: &[u8], mut out: impl Write) -> Outcome {
    match job_of(input) {
        Ok(job) => list_job(&job, out),
        Err(instead) => Ok(writeln!(out, "{instead}")?),
    }
}

fn list_job(job: &Job, out: impl Write) -> Outcome {
    let mut lines = Lines::new(out, job.k);
    let count = write_lines(job, &mut lines, |_| true)?;
    Ok(lines.end(count)?)
}

/// Prints the lines of a job's solutions whose a is in a range.
fn part(job: &Job, range: RangeInclusive<i64>) -> Outcome {
    let mut lines = Lines::new(io::stdout().lock(), job.k);
    write_lines(job, &mut lines, |v| range.contains(&v.a))?;
    Ok(lines.flush()?)
}

/// Writes the lines of the chosen solutions, and tells how many they are.
fn write_lines<W: Write>(
    job: &Job,
    lines: &mut Lines<W>,
    chosen: impl Fn(Point) -> bool,
) -> io::Result<u128> {
    let mut written = Ok(());
    let mut count = 0;
    Walk::new(job).run(|v| {
        if chosen(v) {
            count += 1;
            written = lines.solution(v);
        }
        if written.is_ok() {
            ControlFlow::Continue(())
        } else {
            ControlFlow::Break(())
        }
    });
    written.map(|()| count)
}

fn count(job: &Job) -> Outcome {
    let mut count: u128 = 0;
    measured(job, |_| {
        count += 1;
        ControlFlow::Continue(())
    });
    say(format!("end {count}"))
}

fn first(job: &Job) -> Outcome {
    let mut found = None;
    measured(job, |v| {
        found = Some(v);
        ControlFlow::Break(())
    });
    match found {
        Some(v) => {
            let e = v.exponent(job.k);
            say(format!("{} {} {} {} {} {}", v.a, v.b, v.c, v.d, e, (2 * e).saturating_sub(2)))
        }
        None => say("none"),
    }
}

/// Walks a job and tells on standard error what it took.
fn measured(job: &Job, visit: impl FnMut(Point) -> ControlFlow<()>) {
    let start = Instant::now();
    let candidates = Walk::new(job).run(visit);
    eprintln!("candidates {candidates} seconds {:.3}", start.elapsed().as_secs_f64());
}

/// Prints the pairs of a line problem, after a given pair if there is one.
fn line(numbers: &[i64]) -> Outcome {
    let (here, there, after) = match *numbers {
        [na, alo, ahi, nb, blo, bhi] => ([na, alo, ahi], [nb, blo, bhi], None),
        [na, alo, ahi, nb, blo, bhi, a, b] => ([na, alo, ahi], [nb, blo, bhi], Some((a, b))),
        _ => return Err(USAGE.into()),
    };
    let Some(pairs) = line::pairs(here, there) else {
        return say("refused 4");
    };
    let mut out = BufWriter::new(io::stdout().lock());
    for (a, b) in pairs.filter(|&pair| Some(pair) > after) {
        writeln!(out, "{a} {b}")?;
    }
    Ok(out.flush()?)
}

fn put(bytes: &[u8]) -> Outcome {
    Ok(io::stdout().write_all(bytes)?)
}

fn all_input() -> io::Result<Vec<u8>> {
    let mut bytes = Vec::new();
    io::stdin().lock().read_to_end(&mut bytes)?;
    Ok(bytes)
}

/// The words of a job, or what is printed instead of its list.
fn show(input: &[u8]) -> Outcome {
    match job_of(input) {
        Ok(_) => put(&pack::show(input)),
        Err(instead) => say(instead),
    }
}

/// Compares what a pattern program answered for a job with the shortest pattern
/// found here, and multiplies its word out.
fn pattern(input: &[u8], answer: &[u8]) -> Outcome {
    let found = match job_of(input) {
        Err(instead) => Err(format!("{instead}\n")),
        Ok(job) => entry::shortest(&job).ok_or_else(|| format!("refused 14 at {}\n", input.len())),
    };
    let agreed = match found {
        Err(instead) => answer == instead.as_bytes(),
        Ok((k, u, t)) => t_count::is_pattern(answer, k, u, t),
    };
    say(if agreed { "agreed" } else { "differs" })
}

/// Writes the jobs of the benchmark, each also as readings for a console.
fn write_jobs(directory: &Path) -> Outcome {
    fs::create_dir_all(directory)?;
    for (name, records) in bench::jobs() {
        let reads: String =
            records.iter().map(|record| format!("read {}\n", hex(record))).collect();
        fs::write(directory.join(format!("{name}.job")), records.concat())?;
        fs::write(directory.join(format!("{name}.reads")), reads)?;
    }
    Ok(())
}

fn hex(bytes: &[u8]) -> String {
    bytes.iter().map(|byte| format!("{byte:02x}")).collect()
}

/// Times a console's calls on hard random jobs: a first point, the plain
/// question, and each of the next 100 points; or one given call. LIMIT is in
/// milliseconds.
fn time(
    console: &str,
    mut adversary: Adversary,
    count: usize,
    limit: i64,
    call: Option<&String>,
) -> Outcome {
    let console = Console::new(console)?;
    say(format!("start {} µs", console.start()))?;
    let jobs: Vec<String> = std::iter::repeat_with(|| {
        let reads = adversary.job().map(|record| format!("read {}\n", hex(&record)));
        format!("clear\n{}", reads.concat())
    })
    .take(count)
    .collect();
    let limit = 1_000 * limit;
    let with =
        |calls: &str| -> Vec<String> { jobs.iter().map(|job| job.clone() + calls).collect() };
    if let Some(call) = call {
        let scripts = with(&format!("{call}\n"));
        return report(call, timing::slowest(&console, &scripts, limit)?, &jobs);
    }
    for (name, call) in [("first", "hand 4\n"), ("plain", "plain\n")] {
        report(name, timing::slowest(&console, &with(call), limit)?, &jobs)?;
    }
    let hundred = with(&"hand 4\n".repeat(101));
    let mut next = timing::slowest(&console, &hundred, limit)?;
    next.worst = (0, 0);
    for (took, job) in std::mem::take(&mut next.over) {
        let (slowest, _) =
            timing::slowest_call(&console, &(jobs[job].clone() + "hand 4\n"), "hand 4\n", 100)?;
        say(format!("  101 points {took} µs, the slowest next one {slowest} µs"))?;
        next.worst = next.worst.max((slowest, job));
        if slowest > limit {
            next.over.push((slowest, job));
        }
    }
    report("next", next, &jobs)
}

fn report(name: &str, mut found: timing::Slow, jobs: &[String]) -> Outcome {
    let (worst, at) = found.worst;
    say(format!("{name}: over the limit {}, worst {worst} µs", found.over.len()))?;
    found.over.sort_unstable();
    if found.over.is_empty() {
        found.over.push((worst, at));
    }
    for (took, job) in found.over.iter().rev().take(20) {
        say(format!("  {took} µs {}", jobs[*job].replace("clear\n", "").replace('\n', " ")))?;
    }
    Ok(())
}

/// Runs a list program on bytes of each length.
fn check_bytes(program: &str, from: usize, to: usize, step: usize) -> Outcome {
    let mut agreed = 0;
    for length in (from..=to).step_by(step) {
        agreed += bytes::check(program, length, |input| {
            let mut printed = Vec::new();
            list(input, &mut printed)?;
            Ok(printed)
        })?;
    }
    say(format!("{agreed} inputs agreed"))
}

fn generate(seed: u64, count: u32, directory: &Path) -> Outcome {
    fs::create_dir_all(directory)?;
    let mut generator = Generator::new(seed);
    for number in 0..count {
        let (name, bytes) = generator.job();
        fs::write(directory.join(format!("{number:06}-{name}.job")), bytes)?;
    }
    Ok(())
}
