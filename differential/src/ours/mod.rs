//! Our exported functions: every declaration of the archive stands in this
//! folder, and nothing checks it against the Rattle source.
//!
//! A word travels by value as lo and hi; a table of words is lent as u64s, lo
//! then hi of each; a slice is a pointer, then a length. A number other than 0
//! is a refusal.

pub mod code;
pub mod eval;
pub mod field;
pub mod record;
pub mod ring;
pub mod tree;

use oracle::{Digest, Word};

/// A word as the archive has it.
#[repr(C)]
#[derive(Clone, Copy)]
struct Pair {
    lo: u64,
    hi: u64,
}

/// A number, and a word that is 0 where the number is not.
#[repr(C)]
struct Answer {
    number: u32,
    word: Pair,
}

/// 7 coordinates by value.
#[repr(C)]
struct Point7 {
    words: [Pair; 7],
}

/// 128 coefficients by value.
#[repr(C)]
struct Coefficients {
    words: [Pair; 128],
}

fn pair(word: Word) -> Pair {
    Pair {
        lo: word.0 as u64,
        hi: (word.0 >> 64) as u64,
    }
}

fn word(pair: Pair) -> Word {
    Word(u128::from(pair.hi) << 64 | u128::from(pair.lo))
}

fn coordinates(r: &[Word; 7]) -> Point7 {
    Point7 { words: r.map(pair) }
}

fn coefficients(c: &[Word; 128]) -> Coefficients {
    Coefficients { words: c.map(pair) }
}

/// Words as u64s, lo then hi.
fn lowered(words: &[Word]) -> Vec<u64> {
    words
        .iter()
        .map(|&word| pair(word))
        .flat_map(|pair| [pair.lo, pair.hi])
        .collect()
}

/// u64s, lo then hi, as words.
fn raised(halves: &[u64]) -> Vec<Word> {
    let joined = |halves: &[u64]| {
        word(Pair {
            lo: halves[0],
            hi: halves[1],
        })
    };
    halves.chunks_exact(2).map(joined).collect()
}

/// Bytes, 32 to a digest.
fn cut(bytes: &[u8]) -> Vec<Digest> {
    let digest = |run: &[u8]| run.try_into().expect("32 bytes");
    bytes.chunks_exact(32).map(digest).collect()
}
