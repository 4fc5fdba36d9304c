//! Shared by the tests: a seeded source of words, and the machine started.

use oracle::Word;
use std::sync::Once;

static START: Once = Once::new();

/// Fixes the vector kind before anything is computed.
pub fn start() {
    START.call_once(|| {
        oracle::machine::start().expect("a machine that the Rust may run on");
    });
}

/// splitmix64.
pub struct Random(pub u64);

impl Random {
    pub fn next(&mut self) -> u64 {
        self.0 = self.0.wrapping_add(0x9e37_79b9_7f4a_7c15);
        let mut z = self.0;
        z = (z ^ (z >> 30)).wrapping_mul(0xbf58_476d_1ce4_e5b9);
        z = (z ^ (z >> 27)).wrapping_mul(0x94d0_49bb_1331_11eb);
        z ^ (z >> 31)
    }

    pub fn below(&mut self, bound: usize) -> usize {
        (self.next() % bound as u64) as usize
    }

    pub fn word(&mut self) -> Word {
        Word(u128::from(self.next()) << 64 | u128::from(self.next()))
    }

    pub fn words(&mut self, count: usize) -> Vec<Word> {
        (0..count).map(|_| self.word()).collect()
    }
}
