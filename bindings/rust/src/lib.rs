//! All grid points of a job, each once, in order; and the shortest pattern: a safe wrapper of the proved library. `docs/SPEC.md` says what each call does.
//!
//! ```
//! use bowujita::Session;
//! let disk = [3, 1, 0, 0, 0, 0, 0, 0, 0, 0, 0, 1, 0, 0, 0, 1, 0, 1, 0, 0, 0];
//! let mut s = Session::new();
//! assert_eq!(s.read(&[1, 0]), Ok(2));
//! assert_eq!(s.read(&disk), Ok(21));
//! assert_eq!(s.read(&disk), Ok(21));
//! assert_eq!(s.points().unwrap().count(), 9);
//! ```
#![no_std]

#[cfg(doctest)]
extern crate std;

pub mod raw;

mod error;
mod session;
mod tray;

pub use error::Error;
pub use raw::{Interval, Operator, Sheet, Tariff, Wide, WidePoint};
pub use session::{Points, Session};
pub use tray::{Tray, TrayPoint, TrayPoints};

/// The number of the structs and calls that this crate is written for; `raw::bowujita_abi` answers that of the archive.
pub const ABI: u32 = 2;

/// aω³ + bω² + cω + d.
#[repr(C)]
#[derive(Clone, Copy, Debug, Default, PartialEq, Eq, PartialOrd, Ord, Hash)]
pub struct Point {
    pub a: i32,
    pub b: i32,
    pub c: i32,
    pub d: i32,
}

impl Point {
    /// The exponent of this point over √2^k.
    pub fn exponent(self, k: u8) -> u32 {
        unsafe { raw::bowujita_exponent(self, k) }
    }
}

/// A hand-out: how many points or pairs were written, and whether the end is reached.
#[derive(Clone, Copy, Debug, PartialEq, Eq)]
pub struct Handed {
    pub count: usize,
    pub ended: bool,
}

/// u and t over √2^scale: the first column of a unitary matrix.
#[derive(Clone, Copy, Debug, PartialEq, Eq)]
pub struct Pattern {
    pub scale: u8,
    pub u: Point,
    pub t: Point,
}

/// The sign of p + q√2.
pub fn sign(p: i64, q: i64) -> core::cmp::Ordering {
    unsafe { raw::bowujita_sign(p, q) }.cmp(&0)
}

/// The same for 128-bit numbers.
pub fn wide_sign(p: i128, q: i128) -> core::cmp::Ordering {
    let wide = |x: i128| Wide { hi: (x >> 64) as i64, lo: x as u64 };
    unsafe { raw::bowujita_wide_sign(wide(p), wide(q)) }.cmp(&0)
}

/// The pulse count of an exponent.
pub fn pulses(e: u32) -> u64 {
    unsafe { raw::bowujita_pulses(e) }
}

/// The words of U and of TUT† at the front of two slices; handed back is the one with fewer T.
///
/// ```
/// use bowujita::{words, Point};
/// let u = Point { a: 0, b: -1, c: -1, d: 1 };
/// let t = Point { a: 0, b: 1, c: 0, d: 0 };
/// let (mut first, mut second) = ([0; 64], [0; 64]);
/// assert_eq!(words(2, u, t, &mut first, &mut second), Ok(&b"HTSHTSSHSHWWW"[..]));
/// ```
pub fn words<'a>(k: u8, u: Point, t: Point, first: &'a mut [u8], second: &'a mut [u8]) -> Result<&'a [u8], Error> {
    let w = unsafe { raw::bowujita_words(k, u, t, first.as_mut_ptr(), first.len(), second.as_mut_ptr(), second.len()) };
    Error::check(w.number)?;
    Ok(if w.second != 0 { &second[..w.length] } else { &first[..w.length] })
}

fn handed(h: raw::Handed) -> Result<Handed, Error> {
    Error::check(h.number).map(|()| Handed { count: h.count, ended: h.ended != 0 })
}

/// All t that make a first column with u at scale k, after a place or from the beginning.
pub fn entry(k: u8, u: Point, after: Option<Point>, numbers: &mut [i32]) -> Result<Handed, Error> {
    handed(unsafe { raw::bowujita_entry(k, u, after.is_some() as u8, after.unwrap_or_default(), numbers.as_mut_ptr(), numbers.len()) })
}

/// The pairs of a line problem, after a place or from the beginning.
pub fn line(first: Interval, second: Interval, after: Option<(i32, i32)>, numbers: &mut [i32]) -> Result<Handed, Error> {
    let (a, b) = after.unwrap_or_default();
    handed(unsafe { raw::bowujita_line(first, second, after.is_some() as u8, a, b, numbers.as_mut_ptr(), numbers.len()) })
}

impl Operator {
    /// The test of an operator.
    pub fn test(self) -> Result<(), Error> {
        Error::check(unsafe { raw::bowujita_operator_test(self) })
    }

    /// What an operator makes of a point.
    pub fn image(self, v: Point) -> WidePoint {
        unsafe { raw::bowujita_image(self, v) }
    }

    /// The inverse of an operator that passes the test.
    pub fn inverse(self) -> Result<Operator, Error> {
        let r = unsafe { raw::bowujita_inverse(self) };
        Error::check(r.number).map(|()| r.operator)
    }
}

/// Whole ticks, and whether the memory has as many.
#[derive(Clone, Copy, Debug, PartialEq, Eq)]
pub struct Cost {
    pub ticks: u32,
    pub fits: bool,
}

impl Tariff {
    fn costs(r: raw::Ticks) -> Result<Cost, Error> {
        Error::check(r.number).map(|()| Cost { ticks: r.ticks, fits: r.fits != 0 })
    }

    /// What a word costs.
    pub fn cost(self, word: &[u8], memory: u32) -> Result<Cost, Error> {
        Tariff::costs(unsafe { raw::bowujita_cost(self, word.as_ptr(), word.len(), memory) })
    }

    /// What one to eight words cost together, each closed by a line feed.
    ///
    /// ```
    /// use bowujita::{Cost, Tariff};
    /// let t = Tariff { h: 1500, s: 400, t: 7000, w: 0 };
    /// assert_eq!(t.cost(b"HTS", 10), Ok(Cost { ticks: 9, fits: true }));
    /// assert_eq!(t.tray_cost(b"HTS\nS\n", 9), Ok(Cost { ticks: 10, fits: false }));
    /// ```
    pub fn tray_cost(self, words: &[u8], memory: u32) -> Result<Cost, Error> {
        Tariff::costs(unsafe { raw::bowujita_tray_cost(self, words.as_ptr(), words.len(), memory) })
    }
}

/// A word as lines of OpenQASM 2.0 at the front of a slice.
///
/// ```
/// use bowujita::{qasm, word};
/// let mut text = [0; 64];
/// assert_eq!(qasm(b"HTW", &mut text), Ok(&b"t q[0];\nh q[0];\n"[..]));
/// let mut letters = [0; 8];
/// assert_eq!(word(b"t q[0];\nh q[0];\n", &mut letters), Ok(&b"HT"[..]));
/// ```
pub fn qasm<'a>(word: &[u8], text: &'a mut [u8]) -> Result<&'a [u8], Error> {
    let r = unsafe { raw::bowujita_qasm_write(word.as_ptr(), word.len(), text.as_mut_ptr(), text.len()) };
    Error::check(r.number).map(|()| &text[..r.count])
}

/// The word of such lines, at the front of a slice.
pub fn word<'a>(text: &[u8], word: &'a mut [u8]) -> Result<&'a [u8], Error> {
    let r = unsafe { raw::bowujita_qasm_read(text.as_ptr(), text.len(), word.as_mut_ptr(), word.len()) };
    Error::check(r.number).map(|()| &word[..r.count])
}

impl Sheet {
    /// One sheet from the front of the bytes, as the desk sees it, and the bytes taken.
    pub fn read(bytes: &[u8]) -> Result<(Sheet, usize), Error> {
        let r = unsafe { raw::bowujita_sheet_read(1, bytes.as_ptr(), bytes.len()) };
        Error::check(r.number).map(|()| (Sheet { k: r.k, u: r.u, t: r.t, ticks: r.ticks }, r.taken))
    }

    /// The pulse count and the ticks of one sheet, which is all that the line crew sees, and the bytes taken.
    pub fn read_as_crew(bytes: &[u8]) -> Result<(u64, u32, usize), Error> {
        let r = unsafe { raw::bowujita_sheet_read(2, bytes.as_ptr(), bytes.len()) };
        Error::check(r.number).map(|()| (r.m, r.ticks, r.taken))
    }

    /// The bytes of a sheet at the front of a slice; one that the desk would be refused is not written.
    ///
    /// ```
    /// use bowujita::{Error, Point, Sheet};
    /// let (u, t) = (Point { a: 0, b: -1, c: -1, d: 1 }, Point { a: 0, b: 1, c: 0, d: 0 });
    /// let sheet = Sheet { k: 2, u, t, ticks: 31 };
    /// let mut bytes = [0; 40];
    /// let written = sheet.write(&mut bytes).unwrap();
    /// assert_eq!(Sheet::read(written), Ok((sheet, 38)));
    /// assert_eq!(Sheet::read_as_crew(written), Ok((2, 31, 38)));
    /// assert_eq!(Sheet { k: 3, ..sheet }.write(&mut bytes), Err(Error::NotUnitary));
    /// ```
    pub fn write(self, bytes: &mut [u8]) -> Result<&[u8], Error> {
        let r = unsafe { raw::bowujita_sheet_write(self, bytes.as_mut_ptr(), bytes.len()) };
        Error::check(r.number).map(|()| &bytes[..r.count])
    }
}
