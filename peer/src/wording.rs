//! Random lines of the console's calls on words and sheets, right ones and wrong.

use std::error::Error;
use std::io::{self, BufWriter, Write};

use crate::entry;
use crate::member::Point;
use crate::random::Random;

/// Prints so many lines.
pub fn print(seed: u64, count: u64) -> Result<(), Box<dyn Error>> {
    let mut random = Random::new(seed);
    let mut out = BufWriter::new(io::stdout().lock());
    for _ in 0..count {
        writeln!(out, "{}", line(&mut random))?;
    }
    Ok(())
}

fn line(random: &mut Random) -> String {
    match random.index(6) {
        0 => format!("cost {} {}", prices(random), hex(&word(random, 40))),
        1 => format!("tray-cost {} {}", prices(random), hex(&tray(random))),
        2 => {
            let word = word(random, 40);
            format!("qasm {} {}", room(random, 8 * word.len()), hex(&word))
        }
        3 => {
            let text = text(random);
            format!("unqasm {} {}", room(random, text.len() / 8), hex(&text))
        }
        4 => format!("sheet {} {}", random.pick(&[1, 1, 1, 2, 2, 2, 0, 3]), hex(&sheet(random))),
        _ => put_sheet(random),
    }
}

fn hex(bytes: &[u8]) -> String {
    bytes.iter().map(|byte| format!("{byte:02x}")).collect()
}

fn prices(random: &mut Random) -> String {
    let prices: Vec<String> = (0..4)
        .map(|_| {
            let top = random.pick(&[0, 1, 1_000, 1_001, 1_000_000]);
            let over = i64::from(random.once_in(60)) * random.between(1_000_000, 4_000_000_000);
            (random.between(0, top) + over).min(u32::MAX.into()).to_string()
        })
        .collect();
    let memory = random.pick(&[0, 1, 5, 30, 1_000, 40_000, 4_294_967_295]);
    format!("{} {}", prices.join(" "), random.between(0, memory))
}

fn word(random: &mut Random, longest: i64) -> Vec<u8> {
    let length = random.between(0, longest);
    let mut word: Vec<u8> = (0..length).map(|_| random.pick(b"HSTW")).collect();
    if !word.is_empty() && random.once_in(8) {
        let place = random.index(word.len());
        word[place] = random.between(0, 255) as u8;
    }
    word
}

fn tray(random: &mut Random) -> Vec<u8> {
    let mut tray = Vec::new();
    for _ in 0..random.between(0, 9) {
        tray.extend(word(random, 12));
        tray.push(b'\n');
    }
    if random.once_in(8) {
        tray.pop();
    }
    tray
}

fn text(random: &mut Random) -> Vec<u8> {
    let mut text = Vec::new();
    for _ in 0..random.between(0, 30) {
        text.extend(random.pick(&[b"h q[0];\n", b"s q[0];\n", b"t q[0];\n"]));
    }
    if random.once_in(5) && !text.is_empty() {
        let place = random.index(text.len());
        if random.once_in(2) {
            text.truncate(place);
        } else {
            text[place] = random.between(0, 255) as u8;
        }
    }
    text
}

fn room(random: &mut Random, about: usize) -> usize {
    match random.index(3) {
        0 => 65_536,
        1 => about,
        _ => random.index(about + 9),
    }
}

/// A scale, a point and one of its other entries; small ones, so that there is one.
fn pattern(random: &mut Random) -> (u32, Point, Point) {
    loop {
        let k = random.between(0, 8) as u32;
        let mut part = || random.between(-3, 3);
        let u = Point { a: part(), b: part(), c: part(), d: part() };
        let all = entry::all(k, u);
        if !all.is_empty() {
            let t = all[random.index(all.len())];
            return (k, u, t);
        }
    }
}

fn sheet(random: &mut Random) -> Vec<u8> {
    let (k, u, t) = pattern(random);
    let mut bytes = vec![7, k as u8];
    for part in [u.a, u.b, u.c, u.d, t.a, t.b, t.c, t.d] {
        bytes.extend((part as i32).to_le_bytes());
    }
    bytes.extend((random.between(0, u32::MAX.into()) as u32).to_le_bytes());
    bytes.extend((0..random.between(0, 3)).map(|i| i as u8));
    if random.once_in(3) {
        let place = random.index(38);
        bytes[place] = random.between(0, 255) as u8;
    }
    if random.once_in(8) {
        bytes.truncate(random.index(bytes.len()));
    }
    bytes
}

fn put_sheet(random: &mut Random) -> String {
    let (k, u, t) = pattern(random);
    let mut numbers =
        vec![k.into(), u.a, u.b, u.c, u.d, t.a, t.b, t.c, t.d, random.between(0, u32::MAX.into())];
    if random.once_in(4) {
        numbers[random.index(9)] = random.between(0, 255);
    }
    let numbers: Vec<String> = numbers.iter().map(i64::to_string).collect();
    format!("put-sheet {} {}", random.pick(&[38, 39, 65_536, 37, 0]), numbers.join(" "))
}
