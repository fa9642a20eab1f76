//! The library beside the peer, on random jobs and random lists of calls, refused ones among them; and what has to hold of any session.
use bowujita::{pulses, raw, Error, Handed, Point, Session, Sheet, Tray, TrayPoint};
use std::io::Write as _;
use std::process::{Command, Stdio};

struct Random(u64);

impl Random {
    fn next(&mut self) -> u64 {
        self.0 ^= self.0 << 13;
        self.0 ^= self.0 >> 7;
        self.0 ^= self.0 << 17;
        self.0.wrapping_mul(0x2545_f491_4f6c_dd1d)
    }
    fn within(&mut self, lo: i64, hi: i64) -> i64 {
        lo + (self.next() >> 11) as i64 % (hi - lo + 1)
    }
}

fn region(r: &mut Random, out: &mut Vec<u8>) {
    let n = r.within(1, 12);
    match r.within(0, 2) {
        0 => {
            out.push(2);
            out.extend((n as u16).to_le_bytes());
            for _ in 0..2 {
                let lo = r.within(-2 * n, n);
                let hi = lo + r.within(-1, 3 * n);
                out.extend((lo as i32).to_le_bytes());
                out.extend((hi as i32).to_le_bytes());
            }
        }
        1 => {
            out.push(3);
            out.extend((n as u16).to_le_bytes());
            out.extend((r.within(-n, n) as i32).to_le_bytes());
            out.extend((r.within(-n, n) as i32).to_le_bytes());
            out.extend((r.within(1, 9) as u16).to_le_bytes());
            out.extend((r.within(-3, 3) as i16).to_le_bytes());
            out.extend((r.within(1, 9) as u16).to_le_bytes());
            out.extend((r.within(0, 9 * n * n) as u32).to_le_bytes());
        }
        _ => {
            out.push(5);
            out.extend((n as u16).to_le_bytes());
            out.extend((r.within(-9, 9) as i16).to_le_bytes());
            out.extend((r.within(-9, 9) as i16).to_le_bytes());
            out.extend((r.within(-3 * n, 9 * n) as i32).to_le_bytes());
        }
    }
}

fn job(r: &mut Random) -> Vec<u8> {
    let mut out = vec![1, r.within(0, 7) as u8];
    if r.within(0, 2) > 0 {
        out.extend([6, r.within(0, 1) as u8]);
    }
    region(r, &mut out);
    region(r, &mut out);
    if r.within(0, 3) == 0 {
        out.push(4);
        for x in [0i16, 0, 0, 1, -1, 1, 1, 0] {
            out.extend(x.to_le_bytes());
        }
    }
    match r.within(0, 19) {
        0 => out.truncate(r.within(0, out.len() as i64) as usize),
        1 => {
            let at = r.within(0, out.len() as i64 - 1) as usize;
            out[at] = r.next() as u8;
        }
        _ => {}
    }
    out
}

fn said(yes: bool) -> &'static str {
    if yes { " yes" } else { " no" }
}

/// A hand-out of points of so many numbers, as text; what is behind them is as it was.
fn handed(width: usize, length: &str, hand_out: impl FnOnce(&mut [i32]) -> Result<Handed, Error>) -> Result<String, Error> {
    let mut numbers = vec![7; length.parse().unwrap()];
    let answer = hand_out(&mut numbers);
    let count = answer.map_or(0, |h| h.count);
    assert!(numbers[width * count..].iter().all(|&x| x == 7));
    answer.map(|h| numbers[..width * count].iter().fold(format!(" {count}{}", said(h.ended)), |t, x| t + &format!(" {x}")))
}

/// The answer to a call by a line of text, as the peer's `session` mode has it.
fn answer(s: &mut Session, tray: &mut Tray, line: &str) -> String {
    let words: Vec<&str> = line.split(' ').collect();
    let four = |v: Point| format!(" {} {} {} {}", v.a, v.b, v.c, v.d);
    let point = |n: &[&str]| {
        let n: Vec<i32> = n.iter().map(|w| w.parse().unwrap()).collect();
        Point { a: n[0], b: n[1], c: n[2], d: n[3] }
    };
    let answer = match words[0] {
        "read" => s.read(&hex(words.get(1).unwrap_or(&""))).map(|n| format!(" {n}")),
        "hand" => handed(4, words[1], |numbers| s.hand_out(numbers)),
        "rewind" => s.rewind().map(|()| String::new()),
        "clear" => {
            s.clear();
            Ok(String::new())
        }
        "plain" => s.has_solution().map(|yes| said(yes).into()),
        "image" => s.has_image(point(&words[1..])).map(|yes| said(yes).into()),
        "shortest" => s.shortest().map(|p| format!(" {}{}{}", p.scale, four(p.u), four(p.t))),
        "tray" => tray.take(words[1].parse().unwrap(), words[2].parse().unwrap(), &hex(words[3].trim_matches('-')), &hex(words[4].trim_matches('-'))).map(|n| format!(" {n}")),
        "tray-hand" => handed(5, words[1], |numbers| tray.hand_out(numbers)),
        "tray-rewind" => tray.rewind().map(|()| String::new()),
        "tray-clear" => {
            tray.clear();
            Ok(String::new())
        }
        "put-sheet" => {
            let mut bytes = vec![7; words[1].parse().unwrap()];
            let sheet = Sheet { k: words[2].parse().unwrap(), u: point(&words[3..7]), t: point(&words[7..11]), ticks: words[11].parse().unwrap() };
            sheet.write(&mut bytes).map(|b| format!(" {}", digits(b)))
        }
        _ => Sheet::read(&hex(words[2])).map(|(x, n)| format!(" {n} {}{}{} {}", x.k, four(x.u), four(x.t), x.ticks)),
    };
    match answer {
        Ok(text) => format!("ok{text}"),
        Err(e) => format!("refused {}", e.number()),
    }
}

fn hex(digits: &str) -> Vec<u8> {
    (0..digits.len() / 2).map(|i| u8::from_str_radix(&digits[2 * i..2 * i + 2], 16).unwrap()).collect()
}

fn digits(bytes: &[u8]) -> String {
    bytes.iter().map(|b| format!("{b:02x}")).collect()
}

/// The records of a job, each in a reading of its own or with bytes behind it, and calls between and after them.
fn calls(r: &mut Random, lines: &mut Vec<String>) {
    let input = job(r);
    let mut at = 0;
    while at < input.len() {
        let length = match input[at] {
            1 | 6 => 2,
            2 => 19,
            3 => 21,
            4 => 17,
            5 => 11,
            _ => input.len(),
        };
        let end = (at + length).min(input.len());
        lines.push(format!("read {}", digits(&input[at..if r.within(0, 4) == 0 { input.len() } else { end }])));
        if r.within(0, 5) == 0 {
            call(r, lines);
        }
        at = end;
    }
    for _ in 0..r.within(2, 6) {
        call(r, lines);
    }
    lines.push("clear".into());
}

/// A tray taken or refused, and calls on it and on sheets.
fn tray_calls(r: &mut Random, lines: &mut Vec<String>) {
    let mut a = Vec::new();
    for _ in 0..[1, 2, 3, 8, r.within(0, 9)][r.within(0, 4) as usize] {
        region(r, &mut a);
    }
    let mut b = Vec::new();
    region(r, &mut b);
    let (mut k, mut byte) = (r.within(0, 6), r.within(0, 1));
    match r.within(0, 29) {
        0 => a.truncate(r.within(0, a.len() as i64) as usize),
        1 => b.truncate(r.within(0, b.len() as i64) as usize),
        2 => b.push(0),
        3 => a.extend([1, 3]),
        4 => k = [21, 255, 256, i64::MAX][r.within(0, 3) as usize],
        5 => byte = [2, 256, 1 << 40][r.within(0, 2) as usize],
        _ => {}
    }
    let part = |bytes: &[u8]| if bytes.is_empty() { "-".into() } else { digits(bytes) };
    lines.push(format!("tray {k} {byte} {} {}", part(&a), part(&b)));
    for _ in 0..r.within(2, 6) {
        lines.push(match r.within(0, 11) {
            0 => "tray-rewind".into(),
            1 => "tray-clear".into(),
            2 => sheet(r),
            3 => format!("sheet 1 0702{}", "00000000ffffffffffffffff01000000000000000100000000000000000000001f000000".repeat(r.within(0, 1) as usize)),
            _ => format!("tray-hand {}", [0, 4, 5, 12, 41, 4096][r.within(0, 5) as usize]),
        });
    }
}

/// A sheet to be written: one that makes a unitary matrix, or numbers near one.
fn sheet(r: &mut Random) -> String {
    let mut n = [0, -1, -1, 1, 0, 1, 0, 0];
    if r.within(0, 2) == 0 {
        n[r.within(0, 7) as usize] += r.within(-1, 1) as i32;
    }
    let numbers: String = n.iter().map(|x| format!("{x} ")).collect();
    format!("put-sheet {} {} {numbers}{}", [0, 37, 38, 64][r.within(0, 3) as usize], [2, 2, 2, 21, 255][r.within(0, 4) as usize], r.next() as u32)
}

fn call(r: &mut Random, lines: &mut Vec<String>) {
    lines.push(match r.within(0, 8) {
        0 => "rewind".into(),
        1 => "plain".into(),
        2 => format!("image {} {} {} {}", r.within(-3, 3), r.within(-3, 3), r.within(-3, 3), r.within(-3, 3)),
        3 => "shortest".into(),
        4 => "read 0410".into(),
        5 => "read".into(),
        _ => format!("hand {}", [0, 3, 8, 41, 4096][r.within(0, 4) as usize]),
    });
}

fn peer(lines: &[String]) -> Vec<String> {
    let path = std::env::var("BOWUJITA_PEER").unwrap_or_else(|_| concat!(env!("CARGO_MANIFEST_DIR"), "/../../peer/target/release/peer").into());
    let mut p = Command::new(path).arg("session").stdin(Stdio::piped()).stdout(Stdio::piped()).spawn().unwrap();
    let mut input = p.stdin.take().unwrap();
    let text = lines.join("\n") + "\n";
    let writer = std::thread::spawn(move || input.write_all(text.as_bytes()).unwrap());
    let output = p.wait_with_output().unwrap().stdout;
    writer.join().unwrap();
    String::from_utf8(output).unwrap().lines().map(String::from).collect()
}

#[test]
fn as_the_peer() {
    let mut r = Random(20261117);
    let mut lines = Vec::new();
    for _ in 0..2000 {
        calls(&mut r, &mut lines);
        tray_calls(&mut r, &mut lines);
    }
    let theirs = peer(&lines);
    assert_eq!(theirs.len(), lines.len());
    let (mut s, mut t) = (Session::new(), Tray::new());
    let (mut refused, mut taken) = (0, 0);
    for (i, line) in lines.iter().enumerate() {
        let mine = answer(&mut s, &mut t, line);
        assert_eq!(mine, theirs[i], "call {i}: {line}");
        refused += mine.starts_with("refused") as usize;
        taken += (line.starts_with("tray ") && mine.starts_with("ok")) as usize;
    }
    eprintln!("2,000 jobs and 2,000 trays, {taken} taken, {} calls, {refused} refused", lines.len());
    assert!(taken > 1000 && refused > 500 && refused < lines.len() / 2);
}

/// The tally is that of the points.
#[test]
fn tallies() {
    let mut r = Random(3);
    let mut some = 0;
    for _ in 0..300 {
        let mut job = vec![1, r.within(0, 3) as u8, 6, 1];
        region(&mut r, &mut job);
        region(&mut r, &mut job);
        let mut s = Session::new();
        if s.read_all(&job).is_err() {
            continue;
        }
        let points: Vec<Point> = s.points().unwrap().collect();
        let mut counts = [0; 21];
        for v in &points {
            counts[v.exponent(s.scale()) as usize] += 1;
        }
        assert_eq!(s.tally(), [0; 21]);
        s.hand_out(&mut vec![0; 4 * points.len()]).unwrap();
        assert_eq!(s.tally(), counts);
        s.rewind().unwrap();
        assert_eq!(s.tally(), [0; 21]);
        some += points.len();
    }
    assert!(some > 1000);
}

/// The points of a tray with bit j are those of region j's own job.
#[test]
fn trays_of_jobs() {
    let mut r = Random(5);
    let mut some = 0;
    for _ in 0..60 {
        let (k, all) = (r.within(0, 5) as u8, r.within(0, 1) as u8);
        let regions: Vec<Vec<u8>> = (0..=r.within(1, 8)).map(|_| { let mut a = Vec::new(); region(&mut r, &mut a); a }).collect();
        let (b, a) = regions.split_last().unwrap();
        let mut t = Tray::new();
        if t.take(k.into(), all.into(), &a.concat(), b).is_err() {
            continue;
        }
        let points: Vec<TrayPoint> = t.points().unwrap().collect();
        for (j, own) in a.iter().enumerate() {
            let mut s = Session::new();
            s.read_all(&[&[1, k, 6, all][..], own, b].concat()).unwrap();
            let mine: Vec<Point> = points.iter().filter(|p| p.is_in(j as u32)).map(|p| p.point).collect();
            assert_eq!(mine, s.points().unwrap().collect::<Vec<_>>());
            some += mine.len();
        }
        assert!(points.iter().all(|p| p.regions != 0));
    }
    assert!(some > 1000);
}

#[test]
fn small_slices() {
    // the same points whatever the space, space 0 included
    let mut r = Random(7);
    for _ in 0..40 {
        let input = job(&mut r);
        let mut s = Session::new();
        if s.read_all(&input).is_err() {
            continue;
        }
        let whole: Vec<Point> = s.points().unwrap().collect();
        let mut got = Vec::new();
        let mut ended = false;
        while !ended {
            let n = r.within(0, 23) as usize;
            let mut numbers = vec![77; n];
            let h = s.hand_out(&mut numbers).unwrap();
            assert!(h.count <= n / 4);
            assert!(numbers[4 * h.count..].iter().all(|&x| x == 77));
            got.extend(numbers[..4 * h.count].chunks(4).map(|c| Point { a: c[0], b: c[1], c: c[2], d: c[3] }));
            ended = h.ended;
        }
        assert_eq!(got, whole);
        assert_eq!(s.hand_out(&mut [0; 8]), Err(Error::AfterEnd));
        s.rewind().unwrap();
        assert_eq!(s.points().unwrap().collect::<Vec<_>>(), whole);
        assert_eq!(s.has_solution(), Ok(!whole.is_empty()));
    }
}

#[test]
fn stateless() {
    use core::cmp::Ordering::*;
    assert_eq!(bowujita::sign(-7, 5), Greater);
    assert_eq!(bowujita::sign(-99, 70), Less);
    assert_eq!(bowujita::sign(0, 0), Equal);
    assert_eq!(bowujita::sign(i64::MIN, 6521908912666391106), Less);
    assert_eq!(bowujita::sign(i64::MIN, 6521908912666391107), Greater);
    let first = bowujita::Interval { n: 1, lo: 0, hi: 5 };
    let second = bowujita::Interval { n: 1, lo: -1, hi: 1 };
    let mut pairs = [0; 20];
    let h = bowujita::line(first, second, None, &mut pairs).unwrap();
    assert_eq!((h.count, h.ended), (5, true));
    assert_eq!(pairs[..10], [0, 0, 1, 0, 1, 1, 2, 1, 2, 2]);
    let h = bowujita::line(first, second, Some((1, 0)), &mut pairs).unwrap();
    assert_eq!((h.count, h.ended), (3, true));
    assert_eq!(pairs[..6], [1, 1, 2, 1, 2, 2]);
    assert_eq!(bowujita::line(bowujita::Interval { n: 0, lo: 0, hi: 5 }, second, None, &mut pairs), Err(Error::OutOfRange));
    let u = Point { a: 0, b: -1, c: -1, d: 1 };
    let t = Point { a: 0, b: 1, c: 0, d: 0 };
    let (mut one, mut two) = ([0; 15], [0; 13]);
    assert_eq!(bowujita::words(2, u, t, &mut one, &mut two), Ok(&b"HTSHTSSHSHWWW"[..]));
    assert_eq!(bowujita::words(2, u, t, &mut one[..14], &mut two), Err(Error::NoRoom));
    assert_eq!(bowujita::words(2, u, u, &mut one, &mut two), Err(Error::NotUnitary));
    let mut numbers = [0; 64];
    let h = bowujita::entry(2, u, None, &mut numbers).unwrap();
    assert!(numbers[..4 * h.count].chunks(4).any(|c| c == [0, 1, 0, 0]));
}

#[test]
fn shortest_of_the_paper() {
    assert_eq!(unsafe { raw::bowujita_abi() }, bowujita::ABI);
    let mut s = Session::new();
    assert_eq!(s.read(&hex("0114")), Ok(2));
    assert_eq!(s.read(&hex("053200bfffb9ffcd120000")), Ok(11));
    assert_eq!(s.shortest(), Err(Error::NoJob));
    assert_eq!(s.read(&hex("030100000000000000000001000000010001000000")), Ok(21));
    let p = s.shortest().unwrap();
    assert_eq!(p.scale, 15);
    assert_eq!(p.u, Point { a: 16, b: -48, c: -137, d: -14 });
    assert_eq!(p.t, Point { a: -75, b: 53, c: 0, d: -53 });
    let (mut one, mut two) = ([0; 128], [0; 128]);
    let w = bowujita::words(p.scale, p.u, p.t, &mut one, &mut two).unwrap();
    assert_eq!(w.iter().filter(|&&c| c == b'T').count() as u64, pulses(p.u.exponent(p.scale)));
}
