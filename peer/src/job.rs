//! Job records: reading, refusing, and writing them back as bytes.

/// A field of a record's body, with the range that it must keep.
pub struct Field {
    pub bytes: usize,
    pub signed: bool,
    pub lo: i64,
    pub hi: i64,
}

const fn unsigned(bytes: usize, lo: i64, hi: i64) -> Field {
    Field { bytes, signed: false, lo, hi }
}

const fn signed(bytes: usize, reach: i64) -> Field {
    Field { bytes, signed: true, lo: -reach, hi: reach }
}

pub const SCALE: u8 = 1;
pub const RECTANGLE: u8 = 2;
pub const ELLIPSE: u8 = 3;
pub const OPERATOR: u8 = 4;
pub const SLICE: u8 = 5;
pub const SELECTION: u8 = 6;

const N: Field = unsigned(2, 1, 100);
const PLACE: Field = signed(4, 10_000);
const ENTRY: Field = signed(2, 100);

/// The fields of kinds 01 to 06.
const KINDS: [&[Field]; 6] = [
    &[unsigned(1, 0, 20)],
    &[N, PLACE, PLACE, PLACE, PLACE],
    &[
        N,
        PLACE,
        PLACE,
        unsigned(2, 1, 100),
        signed(2, 100),
        unsigned(2, 1, 100),
        unsigned(4, 0, 1_000_000),
    ],
    &[ENTRY, ENTRY, ENTRY, ENTRY, ENTRY, ENTRY, ENTRY, ENTRY],
    &[N, ENTRY, ENTRY, signed(4, 1_000_000)],
    &[unsigned(1, 0, 1)],
];

/// The fields of a kind, if there is such a kind.
pub fn fields(kind: u8) -> Option<&'static [Field]> {
    KINDS.get(usize::from(kind).checked_sub(1)?).copied()
}

pub fn body_length(fields: &[Field]) -> usize {
    fields.iter().map(|field| field.bytes).sum()
}

#[derive(Clone, Copy, Debug)]
pub enum Shape {
    Rectangle {
        xl: i64,
        xh: i64,
        yl: i64,
        yh: i64,
    },
    Ellipse {
        cx: i64,
        cy: i64,
        p: i64,
        q: i64,
        r: i64,
        s: i64,
    },
    /// Of the disk of radius n.
    Slice {
        zx: i64,
        zy: i64,
        w: i64,
    },
}

#[derive(Clone, Copy, Debug)]
pub struct Region {
    pub n: i64,
    pub shape: Shape,
}

#[derive(Clone, Copy, Debug)]
pub struct Job {
    pub k: u32,
    /// Whether points of a smaller exponent than k are listed too.
    pub all: bool,
    pub a: Region,
    pub b: Region,
}

/// A refusal's number, and the offset that is printed with it.
#[derive(Debug, PartialEq, Eq)]
pub struct Refusal {
    pub number: u8,
    pub at: usize,
}

/// What has been read so far, in the order of the turn.
#[derive(Default)]
pub struct Reading {
    k: Option<u32>,
    all: Option<bool>,
    a: Option<Region>,
    b: Option<Region>,
}

impl Reading {
    fn is_turn_of(&self, kind: u8) -> bool {
        match kind {
            SCALE => self.k.is_none(),
            SELECTION => self.k.is_some() && self.all.is_none() && self.a.is_none(),
            OPERATOR => self.b.is_some(),
            _ => self.k.is_some() && self.b.is_none(),
        }
    }

    /// Takes one record from the front of `bytes`. Returns its length, or the
    /// number of the refusal.
    pub fn take(&mut self, bytes: &[u8]) -> Result<usize, u8> {
        let (kind, values, length) = record(bytes, |kind| self.is_turn_of(kind))?;
        match kind {
            SCALE => self.k = Some(values[0] as u32),
            SELECTION => self.all = Some(values[0] == 1),
            OPERATOR => check_operator(&values)?,
            _ => self.add_region(region(kind, &values)?),
        }
        Ok(length)
    }

    fn add_region(&mut self, region: Region) {
        if self.a.is_none() {
            self.a = Some(region);
        } else {
            self.b = Some(region);
        }
    }

    pub fn job(&self) -> Option<Job> {
        Some(Job { k: self.k?, all: self.all.unwrap_or(false), a: self.a?, b: self.b? })
    }
}

/// One record from the front of `bytes`: its kind, its values and its length,
/// or the number of the refusal.
fn record(bytes: &[u8], is_turn_of: impl Fn(u8) -> bool) -> Result<(u8, Vec<i64>, usize), u8> {
    let kind = *bytes.first().ok_or(1)?;
    let fields = fields(kind).ok_or(2)?;
    if !is_turn_of(kind) {
        return Err(8);
    }
    let length = body_length(fields);
    let body = bytes.get(1..1 + length).ok_or(3)?;
    Ok((kind, decode(fields, body).ok_or(4)?, 1 + length))
}

/// One region record from the front of `bytes`, and its length.
pub fn read_region(bytes: &[u8]) -> Result<(Region, usize), u8> {
    let is_region = |kind| matches!(kind, RECTANGLE | ELLIPSE | SLICE);
    let (kind, values, length) = record(bytes, is_region)?;
    Ok((region(kind, &values)?, length))
}

/// Reads all records of an input.
pub fn read(bytes: &[u8]) -> Result<Job, Refusal> {
    let mut reading = Reading::default();
    let mut at = 0;
    while at < bytes.len() {
        at += reading.take(&bytes[at..]).map_err(|number| Refusal { number, at })?;
    }
    reading.job().ok_or(Refusal { number: 9, at })
}

/// The values of a body, if all are in range.
pub fn decode(fields: &[Field], body: &[u8]) -> Option<Vec<i64>> {
    let mut rest = body;
    let mut values = Vec::with_capacity(fields.len());
    for field in fields {
        let (here, after) = rest.split_at(field.bytes);
        let value = little_endian(here, field.signed);
        if value < field.lo || value > field.hi {
            return None;
        }
        values.push(value);
        rest = after;
    }
    Some(values)
}

fn little_endian(bytes: &[u8], signed: bool) -> i64 {
    let value = bytes.iter().rev().fold(0, |value, &byte| value << 8 | i64::from(byte));
    let bits = 8 * bytes.len();
    if signed && value >> (bits - 1) == 1 {
        value - (1 << bits)
    } else {
        value
    }
}

fn region(kind: u8, values: &[i64]) -> Result<Region, u8> {
    let n = values[0];
    if kind == RECTANGLE {
        let shape = Shape::Rectangle { xl: values[1], xh: values[2], yl: values[3], yh: values[4] };
        return Ok(Region { n, shape });
    }
    if kind == SLICE {
        let (zx, zy, w) = (values[1], values[2], values[3]);
        let is_flat = zx == 0 && zy == 0;
        return if is_flat { Err(11) } else { Ok(Region { n, shape: Shape::Slice { zx, zy, w } }) };
    }
    let (cx, cy) = (values[1], values[2]);
    let (p, q, r, s) = (values[3], values[4], values[5], values[6]);
    if p * r - q * q < 1 {
        return Err(5);
    }
    Ok(Region { n, shape: Shape::Ellipse { cx, cy, p, q, r, s } })
}

/// Refuses an operator that has an odd parity sum (6) or isn't special (7).
pub fn check_operator(values: &[i64]) -> Result<(), u8> {
    let [a, b, c, d] = [values[0], values[1], values[2], values[3]];
    let [a1, b1, c1, d1] = [values[4], values[5], values[6], values[7]];
    if (a + c + a1 + c1) % 2 != 0 || (b + d + b1 + d1) % 2 != 0 {
        return Err(6);
    }
    let whole = d * b1 - d1 * b + c * a1 - a * c1;
    let root = d * (c1 + a1) + b1 * (c - a) - d1 * (c + a) - b * (c1 - a1);
    if whole.abs() != 1 || root != 0 {
        return Err(7);
    }
    Ok(())
}

/// The bytes of a record. Values out of range are written as they are.
pub fn encode(kind: u8, values: &[i64]) -> Vec<u8> {
    let fields = fields(kind).expect("a known kind");
    let mut bytes = vec![kind];
    for (field, value) in fields.iter().zip(values) {
        bytes.extend_from_slice(&value.to_le_bytes()[..field.bytes]);
    }
    bytes
}
