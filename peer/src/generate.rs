//! Random jobs for comparing two list programs.
//!
//! Accepted jobs are small. Many are built around a point: a region is chosen
//! so that its border goes exactly through that point, or just past it.

use crate::job::{
    check_operator, encode, fields, read, ELLIPSE, OPERATOR, RECTANGLE, SCALE, SELECTION, SLICE,
};
use crate::member::Point;
use crate::random::Random;
use crate::root2::{floor_root2, Root2};
use crate::walk::Walk;

/// The greatest size of the boxes of an accepted job.
const LARGEST: u128 = 100_000;

const TRIES: u32 = 1_000;

/// A record as its kind and its values.
#[derive(Clone)]
struct Record {
    kind: u8,
    values: Vec<i64>,
}

impl Record {
    fn new(kind: u8, values: &[i64]) -> Self {
        Record { kind, values: values.to_vec() }
    }

    fn bytes(&self) -> Vec<u8> {
        encode(self.kind, &self.values)
    }

    fn is_in_range(&self) -> bool {
        let fields = fields(self.kind).expect("a known kind");
        fields.iter().zip(&self.values).all(|(field, value)| (field.lo..=field.hi).contains(value))
    }
}

pub struct Generator {
    random: Random,
}

impl Generator {
    pub fn new(seed: u64) -> Self {
        Generator { random: Random::new(seed) }
    }

    /// A name for the sort of job, and its bytes.
    pub fn job(&mut self) -> (&'static str, Vec<u8>) {
        loop {
            let (name, bytes) = match self.random.between(0, 26) {
                0..=4 => ("random", self.records(Self::any_region)),
                5..=9 => ("border", self.records(Self::border_region)),
                10..=11 => ("near", self.records(Self::near_region)),
                12..=13 => ("thin", self.records(Self::thin_region)),
                14 => ("empty", self.empty()),
                20..=22 => ("deep", self.deep()),
                23..=26 => ("slice", self.records(Self::slice_region)),
                _ => ("malformed", self.malformed()),
            };
            if !is_too_large(&bytes) {
                return (name, bytes);
            }
        }
    }

    /// A job whose regions `make` builds around a point, one of them perhaps
    /// only a rectangle that has the point inside.
    fn records(&mut self, make: RegionMaker) -> Vec<u8> {
        joined(&self.record_list(make))
    }

    fn record_list(&mut self, make: RegionMaker) -> Vec<Record> {
        let k = self.random.between(0, 3) as u32;
        let v = self.point(k);
        let [for_a, for_b]: [RegionMaker; 2] = match self.random.between(0, 2) {
            0 => [make, Self::roomy_region],
            1 => [Self::roomy_region, make],
            _ => [make, make],
        };
        let a = for_a(self, v, k);
        let b = for_b(self, v.seen_by_b(k), k);
        let mut records = vec![Record::new(SCALE, &[k.into()])];
        records.extend(self.selection());
        records.extend([a, b]);
        while self.random.once_in(4) {
            records.push(self.special_operator());
        }
        records
    }

    /// A record 06 of either value, or none.
    fn selection(&mut self) -> Option<Record> {
        let value = self.random.between(-1, 1);
        (value >= 0).then(|| Record::new(SELECTION, &[value]))
    }

    /// A small point. Often X or Y, or both, are rational for it, since only
    /// then can it lie on a rectangle's border.
    fn point(&mut self, k: u32) -> Point {
        let mut number = || self.random.between(-4, 4);
        let mut v = Point { a: number(), b: number(), c: number(), d: number() };
        let (in_x, in_y) = (self.random.once_in(2), self.random.once_in(2));
        if k % 2 == 1 {
            v.d *= i64::from(!in_x);
            v.b *= i64::from(!in_y);
            return v;
        }
        match (in_x, in_y) {
            (true, true) => Point { a: 0, c: 0, ..v },
            (true, false) => Point { c: v.a, ..v },
            (false, true) => Point { c: -v.a, ..v },
            (false, false) => v,
        }
    }

    fn n(&mut self) -> i64 {
        match self.random.between(0, 9) {
            0..=3 => self.random.pick(&[1, 2, 4, 8]),
            4..=8 => self.random.between(1, 12),
            _ => self.random.between(1, 100),
        }
    }

    fn any_region(&mut self, v: Point, k: u32) -> Record {
        let n = self.n();
        let (x, y) = place_below(v, n, k);
        if self.random.once_in(2) {
            let mut side = |from: i64| {
                let lo = from + self.random.between(-2 * n, n);
                [lo, lo + self.random.between(0, 3 * n)]
            };
            let ([xl, xh], [yl, yh]) = (side(x), side(y));
            return Record::new(RECTANGLE, &[n, xl, xh, yl, yh]);
        }
        let [p, q, r] = self.form();
        let s = self.random.between(0, 3 * n * n * p.max(r)).min(1_000_000);
        let mut near = |from: i64| from + self.random.between(-n, n);
        Record::new(ELLIPSE, &[n, near(x), near(y), p, q, r, s])
    }

    /// P, Q and R with PR above Q².
    fn form(&mut self) -> [i64; 3] {
        loop {
            let most = self.random.pick(&[2, 5, 12]);
            let (p, r) = (self.random.between(1, most), self.random.between(1, most));
            let q = self.random.between(-most, most);
            if p * r > q * q {
                return [p, q, r];
            }
        }
    }

    /// A rectangle that has v well inside.
    fn roomy_region(&mut self, v: Point, k: u32) -> Record {
        let n = self.n();
        let (x, y) = place_below(v, n, k);
        let mut out = || self.random.between(1, n + 1);
        Record::new(RECTANGLE, &[n, x - out(), x + 1 + out(), y - out(), y + 1 + out()])
    }

    /// A region with v exactly on the border, if one is found.
    fn border_region(&mut self, v: Point, k: u32) -> Record {
        for _ in 0..TRIES {
            let n = self.n();
            let found = if self.random.once_in(2) {
                self.border_rectangle(v, n, k)
            } else {
                self.border_ellipse(v, n, k)
            };
            if let Some(record) = found.filter(Record::is_in_range) {
                return record;
            }
        }
        self.near_region(v, k)
    }

    fn border_rectangle(&mut self, v: Point, n: i64, k: u32) -> Option<Record> {
        let [x, y] = v.parts().map(|part| exact_quotient(part.times(n), k));
        if x.is_none() && y.is_none() {
            return None;
        }
        let (below_x, below_y) = place_below(v, n, k);
        let [xl, xh] = self.sides(x, below_x, n);
        let [yl, yh] = self.sides(y, below_y, n);
        Some(Record::new(RECTANGLE, &[n, xl, xh, yl, yh]))
    }

    /// Two sides, one or both of them at `exact` if that is there; otherwise
    /// `below` and the next number are between them.
    fn sides(&mut self, exact: Option<i64>, below: i64, n: i64) -> [i64; 2] {
        let (down, up) = (self.random.between(0, 2 * n), self.random.between(0, 2 * n));
        match exact {
            Some(at) if self.random.once_in(2) => [at, at + up],
            Some(at) => [at - down, at],
            None => [below - down, below + 1 + up],
        }
    }

    fn border_ellipse(&mut self, v: Point, n: i64, k: u32) -> Option<Record> {
        let (centre, form, value) = self.ellipse_around(v, n, k);
        let unit = 1 << (k + 1);
        if value.q != 0 || value.p % unit != 0 {
            return None;
        }
        // Sometimes the border stops one short of the point.
        let s = value.p / unit - i64::from(self.random.once_in(5));
        Some(ellipse(n, centre, form, s))
    }

    /// A centre and a form near v, with the form's value at v times 2^(k+1).
    fn ellipse_around(&mut self, v: Point, n: i64, k: u32) -> ([i64; 2], [i64; 3], Root2<i64>) {
        let (x, y) = place_below(v, n, k);
        let mut near = |from: i64| from + self.random.between(-n, n);
        let centre = [near(x), near(y)];
        let form = self.form();
        (centre, form, form_value(v, n, k, centre, form))
    }

    /// A region with a border just before or just past v.
    fn near_region(&mut self, v: Point, k: u32) -> Record {
        let n = self.n();
        let past = self.random.between(0, 1);
        let (x, y) = place_below(v, n, k);
        let (down, up) = (self.random.between(0, n), self.random.between(0, n));
        match self.random.between(0, 2) {
            0 => Record::new(RECTANGLE, &[n, x - down, x + past, y - up, y + 1 + up]),
            1 => Record::new(RECTANGLE, &[n, x - down, x + 1 + up, y + past, y + past + down]),
            _ => {
                let (centre, form, value) = self.ellipse_around(v, n, k);
                let below = (value.p + floor_root2(value.q)).div_euclid(1 << (k + 1));
                ellipse(n, centre, form, (below + past).min(1_000_000))
            }
        }
    }

    /// A region of zero width, or of one point, through v where possible.
    fn thin_region(&mut self, v: Point, k: u32) -> Record {
        let n = self.n();
        let (below_x, below_y) = place_below(v, n, k);
        let [x, y] = v.parts().map(|part| exact_quotient(part.times(n), k));
        let (x, y) = (x.unwrap_or(below_x), y.unwrap_or(below_y));
        let wide = self.random.between(0, 3 * n);
        match self.random.between(0, 3) {
            0 => Record::new(RECTANGLE, &[n, x, x, y - wide, y + wide]),
            1 => Record::new(RECTANGLE, &[n, x - wide, x + wide, y, y]),
            2 => Record::new(RECTANGLE, &[n, x, x, y, y]),
            _ => ellipse(n, [x, y], self.form(), 0),
        }
    }

    /// A slice whose chord goes exactly through v where possible, next to it,
    /// or anywhere; v is in the disk if there is an n for that.
    fn slice_region(&mut self, v: Point, k: u32) -> Record {
        let n = if self.random.once_in(8) { self.n() } else { self.random.between(1, 7) };
        let (zx, zy) = loop {
            let most = self.random.pick(&[1, 5, 100]);
            let z = (self.random.between(-most, most), self.random.between(-most, most));
            if z != (0, 0) {
                break z;
            }
        };
        let [x, y] = v.parts().map(|part| part.times(n));
        let at = x.times(zx) + y.times(zy);
        let w = match exact_quotient(at, k) {
            Some(w) => w + self.random.pick(&[0, 0, 1]),
            None => whole_below(at, k) + self.random.between(0, 1),
        };
        // At the border of the disk, and past it.
        let reach = (n * n * (zx * zx + zy * zy)).isqrt();
        let w = match self.random.between(0, 5) {
            0 => reach + self.random.between(-1, 1),
            1 => self.random.between(-reach - 1, reach + 1),
            _ => w,
        };
        Record::new(SLICE, &[n, zx, zy, w.clamp(-1_000_000, 1_000_000)])
    }

    /// A job with a rectangle that is the wrong way round, by one or more.
    fn empty(&mut self) -> Vec<u8> {
        let mut records = self.record_list(Self::roomy_region);
        let rectangles: Vec<usize> =
            (0..records.len()).filter(|&i| records[i].kind == RECTANGLE).collect();
        let region = self.random.pick(&rectangles);
        let side = self.random.pick(&[1, 3]);
        let values = &mut records[region].values;
        values.swap(side, side + 1);
        if self.random.once_in(2) {
            values[side] = values[side + 1] + 1;
        }
        joined(&records)
    }

    /// Two small regions around a point at a scale above 12.
    fn deep(&mut self) -> Vec<u8> {
        let k = self.random.between(13, 20) as u32;
        let far = 1 << self.random.between(0, i64::from(k) / 2);
        let mut number = || self.random.between(-far, far);
        let v = Point { a: number(), b: number(), c: number(), d: number() };
        let a = self.small_region(v, k);
        let b = self.small_region(v.seen_by_b(k), k);
        let mut records = vec![Record::new(SCALE, &[k.into()])];
        records.extend(self.selection());
        records.extend([a, b]);
        joined(&records)
    }

    /// A region of some hundredths around v, or just beside it.
    fn small_region(&mut self, v: Point, k: u32) -> Record {
        let n = self.random.pick(&[50, 99, 100]);
        let (x, y) = place_below(v, n, k);
        let most = self.random.between(0, 3);
        let mut out = || self.random.between(0, most);
        if out() < 2 {
            return Record::new(RECTANGLE, &[n, x - out(), x + out(), y - out(), y + out()]);
        }
        let form = self.form();
        let s = self.random.between(0, most * most * form[0].max(form[2]));
        ellipse(n, [x, y], form, s)
    }

    /// The bytes of an operator that is accepted.
    pub fn operator_bytes(&mut self) -> Vec<u8> {
        self.special_operator().bytes()
    }

    fn special_operator(&mut self) -> Record {
        self.operator(Ok(()))
    }

    /// An operator that is accepted, or refused with a given number.
    fn operator(&mut self, outcome: Result<(), u8>) -> Record {
        loop {
            let most = self.random.between(1, 2);
            let values: Vec<i64> = (0..8).map(|_| self.random.between(-most, most)).collect();
            if check_operator(&values) == outcome {
                return Record::new(OPERATOR, &values);
            }
        }
    }

    /// A job with one or more faults; now and then they leave it accepted.
    fn malformed(&mut self) -> Vec<u8> {
        let make = self.random.pick(&[Self::any_region as RegionMaker, Self::slice_region]);
        let mut records = self.record_list(make);
        records.push(self.special_operator());
        while self.random.once_in(3) {
            self.spoil_records(&mut records);
        }
        if self.random.once_in(2) {
            self.spoil_records(&mut records);
            return joined(&records);
        }
        let mut bytes = joined(&records);
        self.spoil_bytes(&mut bytes, &records);
        bytes
    }

    fn spoil_records(&mut self, records: &mut Vec<Record>) {
        let (i, j) = (self.random.index(records.len()), self.random.index(records.len()));
        match self.random.between(0, 10) {
            9 => records.insert(i, Record::new(SELECTION, &[self.random.between(0, 2)])),
            10 => records[i] = Record::new(SLICE, &[1, 0, 0, self.random.between(-1, 1)]),
            0 => records.swap(i, j),
            1 => records.insert(i, records[j].clone()),
            2 if records.len() > 1 => drop(records.remove(i)),
            3 => records[i] = self.flat_ellipse(),
            4..=5 => {
                let number = self.random.pick(&[6, 7, 7]);
                records.push(self.operator(Err(number)));
            }
            _ => self.leave_range(&mut records[i]),
        }
    }

    /// An ellipse with PR at most Q².
    fn flat_ellipse(&mut self) -> Record {
        loop {
            let (p, r) = (self.random.between(1, 9), self.random.between(1, 9));
            let q = self.random.between(-9, 9);
            if p * r <= q * q && p * r + 3 >= q * q {
                return ellipse(1, [0, 0], [p, q, r], 1);
            }
        }
    }

    /// Puts a field at an end of its range, or one past it.
    fn leave_range(&mut self, record: &mut Record) {
        let fields = fields(record.kind).expect("a known kind");
        let i = self.random.index(fields.len());
        let past = i64::from(!self.random.once_in(4));
        let upwards = self.random.once_in(2) || (!fields[i].signed && fields[i].lo == 0);
        record.values[i] = if upwards { fields[i].hi + past } else { fields[i].lo - past };
    }

    fn spoil_bytes(&mut self, bytes: &mut Vec<u8>, records: &[Record]) {
        match self.random.between(0, 9) {
            0..=4 => bytes.truncate(self.random.index(bytes.len())),
            5 => bytes.push(self.random.between(0, 255) as u8),
            6 => {
                let i = self.random.index(bytes.len());
                bytes[i] = self.random.between(0, 255) as u8;
            }
            7 => {
                let length = self.random.pick(&[65_535, 65_536, 65_537]);
                let operator = self.special_operator().bytes();
                while bytes.len() < length {
                    bytes.extend_from_slice(&operator);
                }
                bytes.truncate(length);
            }
            _ => {
                let before = self.random.index(records.len());
                let at = joined(&records[..before]).len();
                let kind = self.random.between(0, 255) as u8;
                bytes[at] = self.random.pick(&[0, 1, 2, 3, 4, 5, 6, 7, kind]);
            }
        }
    }
}

/// Builds a region around a point as that region sees it.
type RegionMaker = fn(&mut Generator, Point, u32) -> Record;

fn ellipse(n: i64, [cx, cy]: [i64; 2], [p, q, r]: [i64; 3], s: i64) -> Record {
    Record::new(ELLIPSE, &[n, cx, cy, p, q, r, s])
}

fn joined(records: &[Record]) -> Vec<u8> {
    records.iter().flat_map(Record::bytes).collect()
}

fn is_too_large(bytes: &[u8]) -> bool {
    read(bytes).is_ok_and(|job| Walk::new(&job).size() > LARGEST)
}

/// The quotient by √2^(k+1), if it is whole.
fn exact_quotient(part: Root2<i64>, k: u32) -> Option<i64> {
    let unit = Root2::power(k + 1);
    let (here, other, by) =
        if unit.q == 0 { (part.p, part.q, unit.p) } else { (part.q, part.p, unit.q) };
    (other == 0 && here % by == 0).then(|| here / by)
}

/// The whole numbers next below, or equal to, X and Y.
fn place_below(v: Point, n: i64, k: u32) -> (i64, i64) {
    let [x, y] = v.parts().map(|part| whole_below(part.times(n), k));
    (x, y)
}

/// The whole number next below, or equal to, the quotient by √2^(k+1).
fn whole_below(part: Root2<i64>, k: u32) -> i64 {
    let unit = Root2::power(k + 1);
    if unit.q == 0 {
        (part.p + floor_root2(part.q)).div_euclid(unit.p)
    } else {
        // (p + q√2)/(f√2) is (2q + p√2)/2f.
        (2 * part.q + floor_root2(part.p)).div_euclid(2 * unit.q)
    }
}

/// The ellipse's form at v, times 2^(k+1).
fn form_value(v: Point, n: i64, k: u32, [cx, cy]: [i64; 2], [p, q, r]: [i64; 3]) -> Root2<i64> {
    let unit = Root2::power(k + 1);
    let [x, y] = v.parts();
    let (x, y) = (x.times(n) - unit.times(cx), y.times(n) - unit.times(cy));
    let wide = (x * x).times(p.into()) + (x * y).times((2 * q).into()) + (y * y).times(r.into());
    Root2::new(wide.p as i64, wide.q as i64)
}
