//! Random jobs that are hard for a walk in point order: sides that are thin,
//! huge, skewed, of one point or slices, in every mixture, with either selection.

use crate::job::{encode, ELLIPSE, RECTANGLE, SCALE, SELECTION, SLICE};
use crate::random::Random;

const FAR: i64 = 10_000;

/// The scales up to 12, the small ones more often.
const SCALES: [i64; 12] = [0, 0, 0, 1, 2, 3, 4, 6, 8, 10, 11, 12];

const DIVISORS: [i64; 10] = [1, 1, 2, 3, 7, 10, 97, 99, 100, 100];

const SIZES: [i64; 10] = [0, 1, 2, 5, 10, 100, 1_000, 10_000, 100_000, 1_000_000];

pub struct Adversary {
    random: Random,
    /// The least and the greatest scale; up to 12 they are those of `SCALES`.
    scales: [i64; 2],
    /// One side in so many is a slice; none is, if it is 0.
    slices: i64,
}

impl Adversary {
    pub fn new(seed: u64, scales: [i64; 2], slices: i64) -> Self {
        Adversary { random: Random::new(seed), scales, slices }
    }

    /// The records of a job.
    pub fn job(&mut self) -> [Vec<u8>; 4] {
        let [least, most] = self.scales;
        let k = if most <= 12 {
            self.random.pick(&SCALES).clamp(least, most)
        } else {
            self.random.between(least, most)
        };
        let byte = self.random.between(0, 1);
        [encode(SCALE, &[k]), encode(SELECTION, &[byte]), self.side(), self.side()]
    }

    fn side(&mut self) -> Vec<u8> {
        let n = self.random.pick(&DIVISORS);
        if self.slices > 0 && self.random.once_in(self.slices) {
            return self.slice(n);
        }
        if self.random.once_in(2) {
            let ([xl, xh], [yl, yh]) = (self.interval(), self.interval());
            return encode(RECTANGLE, &[n, xl, xh, yl, yh]);
        }
        let [p, q, r] = if self.of_ten(7) {
            self.skewed()
        } else {
            [self.random.between(1, 100), 0, self.random.between(1, 100)]
        };
        let s = match self.random.between(0, 10) {
            10 => self.random.between(0, 1_000_000),
            i => SIZES[i as usize],
        };
        let [cx, cy] = if self.of_ten(3) { [0, 0] } else { [self.far(), self.far()] };
        encode(ELLIPSE, &[n, cx, cy, p, q, r, s])
    }

    /// A slice: thin, touching, just empty, half or most of the disk.
    fn slice(&mut self, n: i64) -> Vec<u8> {
        let most = self.random.pick(&[1, 10, 100, 100]);
        let mut part = || self.random.between(-most, most);
        let (zx, zy) = (part(), part());
        let (zx, zy) = if zx == 0 && zy == 0 { (most, 0) } else { (zx, zy) };
        let reach = (n * n * (zx * zx + zy * zy)).isqrt();
        let w = match self.random.between(0, 9) {
            0..=3 => reach - self.random.between(0, reach / 1_000 + 1),
            4..=6 => reach - self.random.between(0, reach / 10 + 1),
            7 => reach + self.random.between(0, 1),
            8 => 0,
            _ => self.random.between(-reach - 1, reach),
        };
        encode(SLICE, &[n, zx, zy, w])
    }

    fn far(&mut self) -> i64 {
        self.random.between(-FAR, FAR)
    }

    fn of_ten(&mut self, times: i64) -> bool {
        self.random.between(1, 10) <= times
    }

    /// Of zero width, narrow, or wide.
    fn interval(&mut self) -> [i64; 2] {
        let width = match self.random.between(1, 20) {
            1..=5 => 0,
            6..=10 => self.random.between(0, 3),
            11..=14 => self.random.between(0, 100),
            _ => return self.wide(),
        };
        let low = (self.far() - width / 2).max(-FAR);
        [low, (low + width).min(FAR)]
    }

    fn wide(&mut self) -> [i64; 2] {
        if self.of_ten(6) {
            return [-FAR, FAR];
        }
        let (x, y) = (self.far(), self.far());
        [x.min(y), x.max(y)]
    }

    /// P, Q and R with Q² just below PR, or a little further below.
    fn skewed(&mut self) -> [i64; 3] {
        loop {
            let least = if self.of_ten(7) { 80 } else { 1 };
            let (p, r) = (self.random.between(least, 100), self.random.between(least, 100));
            let most = (0..=100).rev().find(|q| q * q < p * r).expect("0 is below");
            let q = most - self.random.pick(&[0, 0, 0, 1, 2, 5, 20]);
            if q >= 0 {
                return [p, if self.random.once_in(2) { -q } else { q }, r];
            }
        }
    }
}
