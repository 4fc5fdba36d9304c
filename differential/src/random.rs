//! The seeded source of inputs: every case has a stream of its own, fixed by the
//! seed, the function's name and the case's number, so that it can be replayed alone.

use oracle::Word;

/// splitmix64.
pub struct Random(u64);

impl Random {
    pub fn for_case(seed: u64, function: &str, case: u64) -> Random {
        let mut random = Random(seed);
        for byte in function.bytes() {
            random.0 = random.number() ^ u64::from(byte);
        }
        random.0 = random.number() ^ case;
        random.number();
        random
    }

    pub fn number(&mut self) -> u64 {
        self.0 = self.0.wrapping_add(0x9e37_79b9_7f4a_7c15);
        let mut z = self.0;
        z = (z ^ (z >> 30)).wrapping_mul(0xbf58_476d_1ce4_e5b9);
        z = (z ^ (z >> 27)).wrapping_mul(0x94d0_49bb_1331_11eb);
        z ^ (z >> 31)
    }

    pub fn below(&mut self, bound: u64) -> u64 {
        self.number() % bound
    }

    pub fn pick<T: Copy>(&mut self, items: &[T]) -> T {
        items[self.below(items.len() as u64) as usize]
    }

    /// A word: mostly any, sometimes one on which carries, halves or reductions show.
    pub fn word(&mut self) -> Word {
        let any = u128::from(self.number()) << 64 | u128::from(self.number());
        Word(match self.below(16) {
            0 => 0,
            1 => 1,
            2 => u128::MAX,
            3 => 1 << self.below(128),
            4 => any >> self.below(128),
            5 => any << self.below(128),
            6 => any & u128::from(u64::MAX),
            7 => any << 64,
            _ => any,
        })
    }

    pub fn words(&mut self, count: usize) -> Vec<Word> {
        (0..count).map(|_| self.word()).collect()
    }

    pub fn array<const N: usize>(&mut self) -> [Word; N] {
        std::array::from_fn(|_| self.word())
    }

    /// Bytes that are 0 or 1.
    pub fn bits(&mut self, count: usize) -> Vec<u8> {
        (0..count).map(|_| self.below(2) as u8).collect()
    }
    pub fn bytes(&mut self, count: usize) -> Vec<u8> {
        (0..count).map(|_| self.number() as u8).collect()
    }

    /// Printable characters, a byte each.
    pub fn text(&mut self, count: usize) -> String {
        (0..count)
            .map(|_| char::from(b' ' + self.below(95) as u8))
            .collect()
    }
}
