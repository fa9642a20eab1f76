//! Jobs in words (SPEC, "Jobs in words").

use crate::job::{
    body_length, decode, encode, fields, ELLIPSE, OPERATOR, RECTANGLE, SCALE, SELECTION, SLICE,
};
use crate::random::Random;

/// What a line says: nothing, a record, or no record.
enum Said {
    Nothing,
    Record(Vec<u8>),
    Bad,
}

/// The most bytes of records that a program takes, and the most that `job` reads.
const LONGEST_JOB: usize = 65_536;
const LONGEST_TEXT: usize = 7 * LONGEST_JOB;

/// What `job` prints for a text.
pub fn pack(text: &[u8]) -> Vec<u8> {
    let too_long = b"too long\n".to_vec();
    if text.len() > LONGEST_TEXT {
        return too_long;
    }
    let mut bytes = Vec::new();
    for (number, line) in text.split(|&b| b == b'\n').enumerate() {
        match said(line) {
            Said::Nothing => (),
            Said::Record(record) => bytes.extend(record),
            Said::Bad => return format!("bad line {}\n", number + 1).into_bytes(),
        }
    }
    if bytes.len() > LONGEST_JOB {
        return too_long;
    }
    bytes
}

/// What `show` prints for the records of a job that is accepted.
pub fn show(job: &[u8]) -> Vec<u8> {
    let mut text = String::new();
    let mut rest = job;
    while let Some((&kind, after)) = rest.split_first() {
        let fields = fields(kind).expect("a known kind");
        let (body, behind) = after.split_at(body_length(fields));
        let values = decode(fields, body).expect("values in range");
        text.push_str(&words(kind, &values));
        rest = behind;
    }
    text.into_bytes()
}

fn words(kind: u8, values: &[i64]) -> String {
    let name = match kind {
        SCALE => "scale",
        RECTANGLE => "rectangle",
        ELLIPSE => "ellipse",
        OPERATOR => "operator",
        SLICE => "slice",
        _ => return format!("selection {}\n", if values[0] == 0 { "new" } else { "all" }),
    };
    let numbers: String = values.iter().map(|value| format!(" {value}")).collect();
    format!("{name}{numbers}\n")
}

fn said(line: &[u8]) -> Said {
    let bare = line.split(|&b| b == b'#').next().unwrap_or(line);
    let mut words = bare.split(|&b| b == b' ').filter(|word| !word.is_empty());
    let Some(name) = words.next() else {
        return Said::Nothing;
    };
    let values: Vec<&[u8]> = words.collect();
    record(name, &values).map_or(Said::Bad, Said::Record)
}

fn record(name: &[u8], words: &[&[u8]]) -> Option<Vec<u8>> {
    let (kind, values) = match (name, words) {
        (b"selection", [b"new"]) => (SELECTION, vec![0]),
        (b"selection", [b"all"]) => (SELECTION, vec![1]),
        (b"disk", [n]) => {
            let n = number(n)?;
            (ELLIPSE, vec![n, 0, 0, 1, 0, 1, n.checked_mul(n)?])
        }
        _ => (kind(name)?, words.iter().map(|word| number(word)).collect::<Option<_>>()?),
    };
    let fields = fields(kind)?;
    let fit = |(field, &value): (&crate::job::Field, &i64)| {
        let bits = 8 * field.bytes as u32;
        if field.signed {
            (-(1_i64 << (bits - 1))..1_i64 << (bits - 1)).contains(&value)
        } else {
            (0..1_i64 << bits).contains(&value)
        }
    };
    (values.len() == fields.len() && fields.iter().zip(&values).all(fit))
        .then(|| encode(kind, &values))
}

fn kind(name: &[u8]) -> Option<u8> {
    match name {
        b"scale" => Some(SCALE),
        b"selection" => Some(SELECTION),
        b"rectangle" => Some(RECTANGLE),
        b"ellipse" => Some(ELLIPSE),
        b"slice" => Some(SLICE),
        b"operator" => Some(OPERATOR),
        _ => None,
    }
}

/// Digits, with a minus before them or not.
fn number(word: &[u8]) -> Option<i64> {
    let text = std::str::from_utf8(word).ok()?;
    if text.starts_with('+') {
        return None;
    }
    text.parse().ok()
}

/// A random text of lines, most of them right.
pub fn text(seed: u64) -> Vec<u8> {
    let mut random = Random::new(seed);
    let mut text = Vec::new();
    for _ in 0..random.between(0, 9) {
        text.extend(line(&mut random));
        if random.once_in(60) {
            text.push(random.between(0, 255) as u8);
        }
        text.push(b'\n');
    }
    if random.once_in(4) {
        text.pop();
    }
    text
}

fn line(random: &mut Random) -> Vec<u8> {
    let names = [
        "scale",
        "selection",
        "rectangle",
        "ellipse",
        "disk",
        "slice",
        "operator",
        "",
        "#",
        "scal",
    ];
    let counts = [1, 1, 5, 7, 1, 4, 8, 0, 2, 1];
    let i = if random.once_in(20) { random.index(10) } else { random.index(9) };
    let mut line = " ".repeat(random.pick(&[0, 0, 0, 2])).into_bytes();
    line.extend(names[i].bytes());
    let count = if random.once_in(30) { random.between(0, 17) } else { counts[i] };
    for _ in 0..count {
        line.extend(" ".repeat(random.pick(&[1, 1, 1, 3])).bytes());
        line.extend(value(random, i == 1).bytes());
    }
    if random.once_in(6) {
        line.extend(b" # 7 new".iter());
    }
    line
}

fn value(random: &mut Random, selects: bool) -> String {
    if selects && !random.once_in(4) {
        return random.pick(&["new", "all", "0", "1"]).into();
    }
    let reach = random.pick(&[1, 20, 100, 10_000, 40_000, 70_000, 1 << 31, 1 << 33, i64::MAX]);
    match random.between(0, 40) {
        0 => "x".into(),
        1 => "18446744073709551616".into(),
        2 => "-9223372036854775808".into(),
        3 => "007".into(),
        4 => "-".into(),
        5..=12 => random.between(-reach, reach - 1).to_string(),
        _ => random.between(0, reach.min(20)).to_string(),
    }
}
