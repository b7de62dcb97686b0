//! A small generator of random numbers that gives the same numbers for the same seed everywhere:
//! splitmix64.

use crate::PANELS;

#[derive(Clone, Debug)]
pub struct Random {
    state: u64,
}

impl Random {
    pub fn new(seed: u64) -> Random {
        Random { state: seed }
    }

    pub fn bits(&mut self) -> u64 {
        self.state = self.state.wrapping_add(0x9E37_79B9_7F4A_7C15);
        let z = (self.state ^ (self.state >> 30)).wrapping_mul(0xBF58_476D_1CE4_E5B9);
        let z = (z ^ (z >> 27)).wrapping_mul(0x94D0_49BB_1331_11EB);
        z ^ (z >> 31)
    }

    /// From 0 up to, but not, `bound`, which is at least 1.
    pub fn below(&mut self, bound: usize) -> usize {
        (self.bits() % bound as u64) as usize
    }

    /// From `low` to `high`, both among them.
    pub fn between(&mut self, low: u8, high: u8) -> u8 {
        low + self.below(usize::from(high - low) + 1) as u8
    }

    /// True once in `among` times.
    pub fn one_in(&mut self, among: usize) -> bool {
        self.below(among) == 0
    }

    pub fn byte(&mut self) -> u8 {
        self.bits() as u8
    }

    pub fn pick<T: Copy>(&mut self, from: &[T]) -> T {
        from[self.below(from.len())]
    }

    /// Any n, and t and writer that fit it.
    pub(crate) fn sizes(&mut self) -> (u8, u8, u8) {
        let n = self.between(1, PANELS as u8);
        let t = self.between(0, (n - 1) / 2);
        let writer = self.between(1, n);
        (n, t, writer)
    }

    /// A setpoint value, now and then one of the ends.
    pub fn value(&mut self) -> u32 {
        match self.below(8) {
            0 => self.pick(&[0, 1, u32::MAX]),
            1 => self.below(1000) as u32,
            _ => self.bits() as u32,
        }
    }

    pub fn fill(&mut self, bytes: &mut [u8]) {
        bytes.fill_with(|| self.byte());
    }
}
