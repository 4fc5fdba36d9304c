//! Inputs drawn by splitmix64 from a stream's number. `crates/test_lines` and tools/lines.py draw the same.

use oracle::Word;

/// A stream. Each number of it is drawn by its place alone.
pub struct Stream(pub u64);

impl Stream {
    /// Number i that splitmix64 gives, started from this stream's.
    pub fn number(&self, i: u64) -> u64 {
        let step = (i + 1).wrapping_mul(0x9e37_79b9_7f4a_7c15);
        let mut z = self.0.wrapping_add(step);
        z = (z ^ (z >> 30)).wrapping_mul(0xbf58_476d_1ce4_e5b9);
        z = (z ^ (z >> 27)).wrapping_mul(0x94d0_49bb_1331_11eb);
        z ^ (z >> 31)
    }

    /// Word i: mostly any, sometimes one on which halves or single bits show.
    pub fn word(&self, i: u64) -> Word {
        let (lo, hi) = (self.number(3 * i), self.number(3 * i + 1));
        let (lo, hi) = match self.number(3 * i + 2) % 16 {
            0 => (0, 0),
            1 => (1, 0),
            2 => (u64::MAX, u64::MAX),
            3 => (lo, 0),
            4 => (0, hi),
            5 => (1 << (lo % 64), 0),
            6 => (0, 1 << (hi % 64)),
            _ => (lo, hi),
        };
        Word(u128::from(hi) << 64 | u128::from(lo))
    }

    pub fn words(&self, count: usize) -> Vec<Word> {
        (0..count as u64).map(|i| self.word(i)).collect()
    }

    pub fn bytes(&self, count: usize) -> Vec<u8> {
        (0..count as u64).map(|i| self.number(i) as u8).collect()
    }

    /// Bytes that are 0 or 1.
    pub fn bits(&self, count: usize) -> Vec<u8> {
        let bit = |i| (self.number(i) % 2) as u8;
        (0..count as u64).map(bit).collect()
    }

    /// Printable characters, a byte each.
    pub fn text(&self, count: usize) -> String {
        let character = |i| char::from(32 + (self.number(i) % 95) as u8);
        (0..count as u64).map(character).collect()
    }
}
