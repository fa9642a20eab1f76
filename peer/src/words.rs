//! Words of gates: their lines in OpenQASM, what they take of a rig's time, and
//! the sheets of patterns (SPEC, "OpenQASM lines", "Rig time", "Pattern sheets").

use crate::entry::solves;
use crate::member::Point;

const TOP_PRICE: u32 = 1_000_000;
const TOP_LENGTH: usize = 65_536;
const TOP_WORDS: usize = 8;
const TOP_SCALE: u8 = 20;
const SHEET: u8 = 7;
const SHEET_LENGTH: usize = 38;

fn gate(letter: u8) -> Result<Option<&'static str>, u8> {
    match letter {
        b'H' => Ok(Some("h q[0];\n")),
        b'S' => Ok(Some("s q[0];\n")),
        b'T' => Ok(Some("t q[0];\n")),
        b'W' => Ok(None),
        _ => Err(15),
    }
}

/// The text of a word that has so much room.
pub fn text(word: &[u8], room: usize) -> Result<Vec<u8>, u8> {
    let lines: Vec<Option<&str>> =
        word.iter().rev().map(|&letter| gate(letter)).collect::<Result<_, _>>()?;
    let text: String = lines.into_iter().flatten().collect();
    if text.len() > room {
        Err(13)
    } else {
        Ok(text.into_bytes())
    }
}

/// The word of a text that has so much room.
pub fn word(text: &[u8], room: usize) -> Result<Vec<u8>, u8> {
    let mut word = Vec::new();
    let mut rest = text;
    while !rest.is_empty() {
        let end = rest.iter().position(|&byte| byte == b'\n').ok_or(17)?;
        word.push(match &rest[..end] {
            b"h q[0];" => b'H',
            b"s q[0];" => b'S',
            b"t q[0];" => b'T',
            _ => return Err(17),
        });
        rest = &rest[end + 1..];
    }
    word.reverse();
    if word.len() > room {
        Err(13)
    } else {
        Ok(word)
    }
}

/// The prices of H, S, T and W.
pub type Tariff = [u32; 4];

/// The ticks of a word.
pub fn cost(tariff: &Tariff, word: &[u8]) -> Result<u64, u8> {
    if tariff.iter().any(|&price| price > TOP_PRICE) || word.len() > TOP_LENGTH {
        return Err(4);
    }
    let mut sum = 0;
    for letter in word {
        let place = b"HSTW".iter().position(|known| known == letter).ok_or(15)?;
        sum += u64::from(tariff[place]);
    }
    Ok(sum.div_ceil(1000))
}

/// The ticks of the words of a tray, each closed by a line feed.
pub fn tray_cost(tariff: &Tariff, tray: &[u8]) -> Result<u64, u8> {
    let closed = tray.strip_suffix(b"\n").ok_or(18)?;
    let words: Vec<&[u8]> = closed.split(|&byte| byte == b'\n').collect();
    if words.len() > TOP_WORDS {
        return Err(18);
    }
    words.into_iter().map(|word| cost(tariff, word)).sum()
}

/// The fields of a sheet.
#[derive(Clone, Copy)]
pub struct Sheet {
    pub k: u8,
    pub u: Point,
    pub t: Point,
    pub ticks: u32,
}

/// What a reader sees.
pub enum Seen {
    Desk(Sheet),
    Crew(u64, u32),
}

fn number(bytes: &[u8], at: usize) -> [u8; 4] {
    [bytes[at], bytes[at + 1], bytes[at + 2], bytes[at + 3]]
}

fn point(bytes: &[u8], at: usize) -> Point {
    let part = |i: usize| i64::from(i32::from_le_bytes(number(bytes, at + 4 * i)));
    Point { a: part(0), b: part(1), c: part(2), d: part(3) }
}

/// One reading of a sheet.
pub fn sheet(reader: u64, bytes: &[u8]) -> Result<Seen, u8> {
    if reader != 1 && reader != 2 {
        return Err(19);
    }
    if *bytes.first().ok_or(1)? != SHEET {
        return Err(2);
    }
    if bytes.len() < SHEET_LENGTH {
        return Err(3);
    }
    let k = bytes[1];
    if k > TOP_SCALE {
        return Err(4);
    }
    let sheet = Sheet {
        k,
        u: point(bytes, 2),
        t: point(bytes, 18),
        ticks: u32::from_le_bytes(number(bytes, 34)),
    };
    if reader == 2 {
        let e = sheet.u.exponent(k.into());
        return Ok(Seen::Crew((2 * u64::from(e)).saturating_sub(2), sheet.ticks));
    }
    if solves(k.into(), sheet.u, sheet.t) {
        Ok(Seen::Desk(sheet))
    } else {
        Err(12)
    }
}

/// The bytes of a sheet that has so much room.
pub fn put_sheet(sheet: &Sheet, room: usize) -> Result<Vec<u8>, u8> {
    if sheet.k > TOP_SCALE {
        return Err(4);
    }
    if !solves(sheet.k.into(), sheet.u, sheet.t) {
        return Err(12);
    }
    if room < SHEET_LENGTH {
        return Err(13);
    }
    let mut bytes = vec![SHEET, sheet.k];
    for v in [sheet.u, sheet.t] {
        for part in [v.a, v.b, v.c, v.d] {
            bytes.extend((part as i32).to_le_bytes());
        }
    }
    bytes.extend(sheet.ticks.to_le_bytes());
    Ok(bytes)
}
