//! Buffers as the tests hand them over, with places beside them.

use std::fmt::{self, Display, Formatter};

/// How far the places beside a buffer are looked at. It is odd, so that a buffer starts at no round address.
const BESIDE: usize = 7;

/// A number of a buffer.
pub trait Number: Copy + Display + PartialEq {
    /// What a lent buffer, and the places beside any buffer, hold at place k before a call: nothing that an accepted call is
    /// given or answers, and another value at each place nearby. The bytes of a packet and the samples that are turned have
    /// no such value; there the values nearby differ at least.
    fn pattern(k: usize) -> Self;
}

impl Number for i32 {
    /// In turn below and above.
    fn pattern(k: usize) -> i32 {
        let k = k as i32;
        if k % 2 == 0 {
            -2_000_000_000 + k
        } else {
            2_000_000_000 - k
        }
    }
}

impl Number for i64 {
    /// In turn below and above.
    fn pattern(k: usize) -> i64 {
        let k = k as i64;
        if k % 2 == 0 {
            -8_000_000_000_000_000_001 + k
        } else {
            8_000_000_000_000_000_001 - k
        }
    }
}

impl Number for u16 {
    fn pattern(k: usize) -> u16 {
        65_535 - (k % 60_000) as u16
    }
}

impl Number for u32 {
    /// No turn, no layout, no rounds and no threshold; no byte of it is 0.
    fn pattern(k: usize) -> u32 {
        4_294_967_295 - k as u32
    }
}

impl Number for u8 {
    /// Neither yes nor no.
    fn pattern(k: usize) -> u8 {
        255 - (k % 190) as u8
    }
}

impl Number for usize {
    fn pattern(k: usize) -> usize {
        usize::MAX - k
    }
}

/// A float of which every bit counts: those of a NaN, and the sign of 0.
#[derive(Clone, Copy)]
pub struct Float(pub f64);

impl PartialEq for Float {
    fn eq(&self, other: &Float) -> bool {
        self.0.to_bits() == other.0.to_bits()
    }
}

impl Display for Float {
    fn fmt(&self, out: &mut Formatter) -> fmt::Result {
        write!(out, "{:016x}", self.0.to_bits())
    }
}

impl Number for Float {
    /// No number.
    fn pattern(k: usize) -> Float {
        Float(f64::from_bits(u64::MAX - k as u64))
    }
}

/// Fails at the first place where the two differ; whole buffers would be too long to print.
pub fn assert_same<T: Number>(found: &[T], due: &[T], what: &str) {
    assert_eq!(found.len(), due.len(), "{what}");
    if let Some(k) = (0..due.len()).find(|&k| found[k] != due[k]) {
        panic!("{what}, place {k}: {} in place of {}", found[k], due[k]);
    }
}

/// A buffer between its places beside.
pub struct Buffer<T>(Vec<T>);

impl<T: Number> Buffer<T> {
    pub fn lent(length: usize) -> Buffer<T> {
        Buffer((0..length + 2 * BESIDE).map(T::pattern).collect())
    }

    pub fn given(values: &[T]) -> Buffer<T> {
        let mut buffer = Buffer::lent(values.len());
        buffer.inside_mut().copy_from_slice(values);
        buffer
    }

    pub fn inside(&self) -> &[T] {
        &self.0[BESIDE..self.0.len() - BESIDE]
    }

    pub fn inside_mut(&mut self) -> &mut [T] {
        let end = self.0.len() - BESIDE;
        &mut self.0[BESIDE..end]
    }

    /// Fails where one of these places, counted from the first place beside the buffer, does not hold the pattern.
    fn assert_pattern(&self, mut places: impl Iterator<Item = usize>, what: &str) {
        if let Some(k) = places.find(|&k| self.0[k] != T::pattern(k)) {
            let due = T::pattern(k);
            panic!("{what}, place {}: {} in place of {due}", k as i64 - BESIDE as i64, self.0[k]);
        }
    }

    /// The one number of a buffer of one, as a call that hands back a number is lent it.
    pub fn number_mut(&mut self) -> &mut T {
        let [number] = self.inside_mut() else { panic!("a buffer of one") };
        number
    }

    /// Holds what is due, and the places beside hold what they held.
    pub fn assert_holds(&self, due: &[T], what: &str) {
        assert_same(self.inside(), due, what);
        self.assert_pattern((0..BESIDE).chain(self.0.len() - BESIDE..self.0.len()), what);
    }

    /// Holds what a lent buffer held, and so do the places beside.
    pub fn assert_untouched(&self, what: &str) {
        self.assert_pattern(0..self.0.len(), what);
    }
}
