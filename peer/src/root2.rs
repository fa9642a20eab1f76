//! Whole numbers with root two: p + q√2, exactly.

use std::ops::{Add, Mul, Neg, Sub};

/// p + q√2 with whole p and q.
#[derive(Clone, Copy, Debug, PartialEq, Eq)]
pub struct Root2<T> {
    pub p: T,
    pub q: T,
}

impl<T> Root2<T> {
    pub fn new(p: T, q: T) -> Self {
        Root2 { p, q }
    }
}

impl Root2<i64> {
    /// √2^j.
    pub fn power(j: u32) -> Self {
        let half = 1 << (j / 2);
        if j.is_multiple_of(2) {
            Root2::new(half, 0)
        } else {
            Root2::new(0, half)
        }
    }

    pub fn times(self, n: i64) -> Self {
        Root2::new(self.p * n, self.q * n)
    }

    pub fn sign(self) -> i32 {
        sign(self.p.into(), self.q.into())
    }
}

impl Root2<i128> {
    pub fn times(self, n: i128) -> Self {
        Root2::new(self.p * n, self.q * n)
    }

    pub fn sign(self) -> i32 {
        sign(self.p, self.q)
    }
}

impl<T: Add<Output = T>> Add for Root2<T> {
    type Output = Self;
    fn add(self, other: Self) -> Self {
        Root2::new(self.p + other.p, self.q + other.q)
    }
}

impl<T: Sub<Output = T>> Sub for Root2<T> {
    type Output = Self;
    fn sub(self, other: Self) -> Self {
        Root2::new(self.p - other.p, self.q - other.q)
    }
}

impl<T: Neg<Output = T>> Neg for Root2<T> {
    type Output = Self;
    fn neg(self) -> Self {
        Root2::new(-self.p, -self.q)
    }
}

/// The product of two 64-bit numbers is kept in 128 bits.
impl Mul for Root2<i64> {
    type Output = Root2<i128>;
    fn mul(self, other: Self) -> Root2<i128> {
        let wide = |x: i64, y: i64| i128::from(x) * i128::from(y);
        Root2::new(
            wide(self.p, other.p) + 2 * wide(self.q, other.q),
            wide(self.p, other.q) + wide(self.q, other.p),
        )
    }
}

/// The sign of p + q√2, as −1, 0 or 1, for every p and q. As t·|t| rises with
/// t, p is compared with −q√2 by p·|p| and −2·q·|q|.
#[inline]
pub fn sign(p: i128, q: i128) -> i32 {
    const NARROW: u128 = 1 << 62;
    if p.unsigned_abs() < NARROW && q.unsigned_abs() < NARROW {
        let square = |t: i128| t * t.abs();
        return square(p).cmp(&(-2 * square(q))) as i32;
    }
    if (p >= 0) == (q >= 0) {
        return if p >= 0 { 1 } else { -1 };
    }
    let larger = square(p.unsigned_abs()).cmp(&doubled(square(q.unsigned_abs()))) as i32;
    if p >= 0 {
        larger
    } else {
        -larger
    }
}

/// The square of a size up to 2^127, as two words of 128 bits, the high one
/// first.
fn square(t: u128) -> (u128, u128) {
    let (high, low) = (t >> 64, t & u128::from(u64::MAX));
    let middle = high * low;
    let (word, carry) = (low * low).overflowing_add(middle << 65);
    (high * high + (middle >> 63) + u128::from(carry), word)
}

fn doubled((high, low): (u128, u128)) -> (u128, u128) {
    (high << 1 | low >> 127, low << 1)
}

/// The greatest whole number not above v√2, for v within ±2^60.
#[inline]
pub fn floor_root2(v: i64) -> i64 {
    // √2 times 2^64, rounded down.
    const ROOT2: u128 = 0x1_6a09_e667_f3bc_c908;
    let size = v.unsigned_abs();
    let guess = ((u128::from(size) * ROOT2) >> 64) as u64;
    let next = guess + 1;
    let square = |t: u64| u128::from(t) * u128::from(t);
    let root = guess as i64 + i64::from(square(next) <= 2 * square(size));
    if v >= 0 {
        root
    } else {
        -root - 1
    }
}
