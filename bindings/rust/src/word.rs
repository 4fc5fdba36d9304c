//! Words, and tables of words as the archive takes them.

use crate::raw;
use std::fmt;
use std::str::FromStr;

/// An element of GF(2^128): bit i is the coefficient of x^i. It is written as 32 hexadecimal digits, highest first.
///
/// ```
/// use dequmlo::Word;
/// let word: Word = "0000000000000000000000000000001d".parse().unwrap();
/// assert_eq!(word, Word(29));
/// assert_eq!(word.to_string(), "0000000000000000000000000000001d");
/// assert!("1d".parse::<Word>().is_err());
/// ```
#[derive(Clone, Copy, Debug, Default, PartialEq, Eq, Hash)]
#[repr(transparent)]
pub struct Word(pub u128);

/// The text is not 32 hexadecimal digits.
#[derive(Clone, Copy, Debug, PartialEq, Eq)]
#[non_exhaustive]
pub struct ParseWordError;

impl fmt::Display for ParseWordError {
    fn fmt(&self, f: &mut fmt::Formatter) -> fmt::Result {
        write!(f, "a word is 32 hexadecimal digits, highest first")
    }
}

impl std::error::Error for ParseWordError {}

impl From<u128> for Word {
    fn from(bits: u128) -> Word {
        Word(bits)
    }
}

impl fmt::Display for Word {
    fn fmt(&self, f: &mut fmt::Formatter) -> fmt::Result {
        write!(f, "{:032x}", self.0)
    }
}

impl FromStr for Word {
    type Err = ParseWordError;
    fn from_str(text: &str) -> Result<Word, Self::Err> {
        if text.len() != 32 || !text.bytes().all(|b| b.is_ascii_hexdigit()) {
            return Err(ParseWordError);
        }
        Ok(Word(
            u128::from_str_radix(text, 16).expect("32 hexadecimal digits are 128 bits"),
        ))
    }
}

impl Word {
    pub(crate) fn raw(self) -> raw::Word {
        raw::Word {
            lo: self.0 as u64,
            hi: (self.0 >> 64) as u64,
        }
    }

    pub(crate) fn of(raw: raw::Word) -> Word {
        Word(u128::from(raw.hi) << 64 | u128::from(raw.lo))
    }

    /// The word of 16 bytes, as records have it.
    pub(crate) fn of_bytes(bytes: &[u8]) -> Word {
        Word(u128::from_le_bytes(bytes.try_into().expect("16 bytes")))
    }
}

const _: () = assert!(
    cfg!(target_endian = "little"),
    "a word's low half lies first, as on x86-64, which the archive is for"
);

/// The halves of words, the low half of each first: the words as they lie, without a copy.
pub(crate) fn halves(words: &[Word]) -> &[u64] {
    unsafe { std::slice::from_raw_parts(words.as_ptr().cast(), 2 * words.len()) }
}

/// The words of halves.
pub(crate) fn words(halves: &[u64]) -> Vec<Word> {
    halves
        .chunks_exact(2)
        .map(|h| Word(u128::from(h[1]) << 64 | u128::from(h[0])))
        .collect()
}

/// The bytes of halves, without a copy: those of each word, the lowest first.
pub(crate) fn bytes(halves: &[u64]) -> &[u8] {
    unsafe { std::slice::from_raw_parts(halves.as_ptr().cast(), 8 * halves.len()) }
}

/// The same to be written.
pub(crate) fn bytes_mut(halves: &mut [u64]) -> &mut [u8] {
    unsafe { std::slice::from_raw_parts_mut(halves.as_mut_ptr().cast(), 8 * halves.len()) }
}
