//! Buffered solution lines `a b c d e m`.

use std::io::{self, Write};

use crate::member::Point;

/// The buffer is written out when it holds this much.
const FULL: usize = 1 << 16;

pub struct Lines<W: Write> {
    out: W,
    k: u32,
    buffer: Vec<u8>,
    /// The line's beginning `a b c `, and the a, b and c in it.
    head: Vec<u8>,
    headed: Option<[i64; 3]>,
    /// The line's end ` e m`, for each e.
    tails: Vec<String>,
}

impl<W: Write> Lines<W> {
    pub fn new(out: W, k: u32) -> Self {
        let tails = (0..=k).map(|e| format!(" {} {}\n", e, (2 * e).saturating_sub(2))).collect();
        Lines {
            out,
            k,
            buffer: Vec::with_capacity(2 * FULL),
            head: Vec::new(),
            headed: None,
            tails,
        }
    }

    pub fn solution(&mut self, v: Point) -> io::Result<()> {
        if self.headed != Some([v.a, v.b, v.c]) {
            self.head = format!("{} {} {} ", v.a, v.b, v.c).into_bytes();
            self.headed = Some([v.a, v.b, v.c]);
        }
        self.buffer.extend_from_slice(&self.head);
        push_number(&mut self.buffer, v.d);
        self.buffer.extend_from_slice(self.tails[v.exponent(self.k) as usize].as_bytes());
        if self.buffer.len() >= FULL {
            self.flush()?;
        }
        Ok(())
    }

    /// Writes what is still held.
    pub fn flush(&mut self) -> io::Result<()> {
        self.out.write_all(&self.buffer)?;
        self.buffer.clear();
        Ok(())
    }

    /// Writes what is still held, and `end N`.
    pub fn end(mut self, count: u128) -> io::Result<()> {
        self.flush()?;
        writeln!(self.out, "end {count}")?;
        self.out.flush()
    }
}

fn push_number(buffer: &mut Vec<u8>, number: i64) {
    let mut digits = [0; 20];
    let mut at = digits.len();
    let mut rest = number.unsigned_abs();
    loop {
        at -= 1;
        digits[at] = b'0' + (rest % 10) as u8;
        rest /= 10;
        if rest == 0 {
            break;
        }
    }
    if number < 0 {
        at -= 1;
        digits[at] = b'-';
    }
    buffer.extend_from_slice(&digits[at..]);
}
