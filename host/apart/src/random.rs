//! Numbers that look random and repeat themselves from their seed (SplitMix64).

use std::ops::RangeInclusive;

pub struct Random(u64);

impl Random {
    pub fn seeded(seed: u64) -> Random {
        Random(seed)
    }

    pub fn word(&mut self) -> u64 {
        self.0 = self.0.wrapping_add(0x9e37_79b9_7f4a_7c15);
        let x = (self.0 ^ (self.0 >> 30)).wrapping_mul(0xbf58_476d_1ce4_e5b9);
        let x = (x ^ (x >> 27)).wrapping_mul(0x94d0_49bb_1331_11eb);
        x ^ (x >> 31)
    }

    pub fn within(&mut self, range: RangeInclusive<u64>) -> u64 {
        range.start() + self.word() % (range.end() - range.start() + 1)
    }

    pub fn index(&mut self, below: usize) -> usize {
        (self.word() % below as u64) as usize
    }

    /// True once in so many times.
    pub fn once_in(&mut self, times: u64) -> bool {
        self.word() % times == 0
    }

    pub fn one_of<T: Copy>(&mut self, choices: &[T]) -> T {
        choices[self.index(choices.len())]
    }

    pub fn bytes(&mut self, length: usize) -> Vec<u8> {
        (0..length).map(|_| self.word() as u8).collect()
    }

    /// A length near one of the limits, or anywhere up to the largest.
    pub fn length(&mut self, limits: &[usize]) -> usize {
        let limit = self.one_of(limits);
        match self.index(4) {
            0 => limit,
            1 => limit + 1,
            2 => limit.saturating_sub(1),
            _ => self.index(limit + 2),
        }
    }
}
