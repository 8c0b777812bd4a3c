//! What the original uses of `rand` 0.10, which Debian does not have, by document 01's draw rules.
pub use rand_core::{RngCore, RngCore as Rng, SeedableRng};
use std::ops::{Range, RangeInclusive};

/// A whole range of n values by draws of w bits, from 0 on; n = 0 stands for all 2^w.
fn whole(w: u32, n: u64, mut draw: impl FnMut() -> u64) -> u64 {
    if n == 0 {
        return draw();
    }
    let (all, n) = (1u128 << w, u128::from(n));
    let product = u128::from(draw()) * n;
    let (high, low) = (product >> w, product & (all - 1));
    let carries = low > all - n && low + (u128::from(draw()) * n >> w) >= all;
    high as u64 + u64::from(carries)
}

/// Values that are drawn without a range.
pub trait Drawn {
    fn drawn<R: RngCore + ?Sized>(rng: &mut R) -> Self;
}

impl Drawn for u32 {
    fn drawn<R: RngCore + ?Sized>(rng: &mut R) -> Self {
        rng.next_u32()
    }
}

impl Drawn for u64 {
    fn drawn<R: RngCore + ?Sized>(rng: &mut R) -> Self {
        rng.next_u64()
    }
}

/// A fraction: the top 53 bits, times 2^-53.
impl Drawn for f64 {
    fn drawn<R: RngCore + ?Sized>(rng: &mut R) -> Self {
        const UNIT: f64 = 1.0 / (1u64 << 53) as f64;
        UNIT * (rng.next_u64() >> 11) as f64
    }
}

/// Ranges that values are drawn in.
pub trait DrawnIn<T> {
    fn drawn_in<R: RngCore + ?Sized>(self, rng: &mut R) -> T;
}

/// A real range: the top 52 bits stand behind the exponent of 1, so that less 1 they are v.
impl DrawnIn<f64> for Range<f64> {
    fn drawn_in<R: RngCore + ?Sized>(self, rng: &mut R) -> f64 {
        let v = f64::from_bits(1f64.to_bits() | rng.next_u64() >> 12) - 1.0;
        let drawn = v * (self.end - self.start) + self.start;
        assert!(drawn < self.end, "a real range gave its end: {self:?}");
        drawn
    }
}

impl DrawnIn<u64> for RangeInclusive<u64> {
    fn drawn_in<R: RngCore + ?Sized>(self, rng: &mut R) -> u64 {
        assert!(!self.is_empty());
        let values = (self.end() - self.start()).wrapping_add(1);
        self.start() + whole(64, values, || rng.next_u64())
    }
}

/// An index: 32 bits where the length has no more.
impl DrawnIn<usize> for Range<usize> {
    fn drawn_in<R: RngCore + ?Sized>(self, rng: &mut R) -> usize {
        assert!(!self.is_empty());
        let values = (self.end - self.start) as u64;
        let from = if self.end <= u32::MAX as usize {
            whole(32, values, || u64::from(rng.next_u32()))
        } else {
            whole(64, values, || rng.next_u64())
        };
        self.start + from as usize
    }
}

pub trait RngExt: RngCore {
    fn random<T: Drawn>(&mut self) -> T {
        T::drawn(self)
    }
    fn random_range<T, S: DrawnIn<T>>(&mut self, range: S) -> T {
        range.drawn_in(self)
    }
}

impl<R: RngCore + ?Sized> RngExt for R {}
