//! A file as a table of words: 16 bytes each, little-endian, zeros after the file, and the file's byte length as the last word, so that the
//! length too is under the root. The table has 2^n words, n from 1 to 20.

use crate::outcome::Failure;
use crate::reading::{steady_named, unreadable};
use crate::shape::Shape;
use dequmlo::{Sizes, Widths, Word};
use std::path::Path;

/// A file's length and its table.
pub struct Table {
    pub bytes: usize,
    pub words: Vec<Word>,
}

impl Table {
    /// Word p of the file itself, with zeros behind its end, wherever its table has the length.
    pub fn file_word(&self, place: usize) -> Word {
        let of_file = (self.bytes + 15) / 16;
        match self.words.get(place) {
            Some(word) if place < of_file => *word,
            _ => Word(0),
        }
    }
}

/// The table of a file; a sentence where the file is too large, of which then no more is read than shows that. Fails where the file cannot be read, or is
/// changed meanwhile.
pub fn read_table(path: &Path) -> Result<Result<Table, String>, Failure> {
    let bytes = steady_named(path, MOST_BYTES).map_err(|e| unreadable(path, e))?;
    Ok(table_of(&bytes).map(|words| Table {
        bytes: bytes.len(),
        words,
    }))
}

/// The largest file: all of 2^20 words but the last.
pub const MOST_BYTES: usize = 16 * ((1 << 20) - 1);

/// The table of these bytes, or a sentence where they are too many.
pub fn table_of(bytes: &[u8]) -> Result<Vec<Word>, String> {
    let mut table = Vec::new();
    table_in(&mut table, bytes).map(|()| table)
}

/// The same in place of what is there.
pub fn table_in(table: &mut Vec<Word>, bytes: &[u8]) -> Result<(), String> {
    if bytes.len() > MOST_BYTES {
        return Err(format!(
            "the file has more than {MOST_BYTES} bytes, the most that a deposit has (n = 20)"
        ));
    }
    let count = words_of(bytes.len());
    table.clear();
    table.resize(count, Word(0));
    for (word, chunk) in table.iter_mut().zip(bytes.chunks(16)) {
        let mut padded = [0; 16];
        padded[..chunk.len()].copy_from_slice(chunk);
        *word = Word(u128::from_le_bytes(padded));
    }
    table[count - 1] = Word(bytes.len() as u128);
    Ok(())
}

/// Fails where there is no memory for what committing a table of this shape asks of the system beside the table. (Memory that runs out later would end
/// the program without a sentence.)
pub fn room_to_commit(shape: &Shape) -> Result<(), Failure> {
    room(shape.widths, shape.n, shape.k, 1, buffers).map(|_| ())
}

/// The bytes of the buffers of a deposit: the gammas, and the levels with their trees, of which committing fills the first.
fn buffers(sizes: &Sizes) -> usize {
    16 * (sizes.gamma_words + sizes.levels_words) + sizes.trees_bytes
}

/// How many files of so many bytes there is memory to commit at once, each with its bytes and its table, up to so many; fails where there is none for one.
pub fn room_to_commit_many(
    widths: Widths,
    bytes: usize,
    k: usize,
    most: usize,
) -> Result<usize, Failure> {
    let taken = |sizes: &Sizes| bytes + 16 * sizes.table_words + buffers(sizes);
    room(widths, variables(bytes), k, most, taken)
}

/// Fails where there is no memory for a deposit of this shape and what folding it takes beside: half a codeword, and a copy of the table.
pub fn room_to_fold(shape: &Shape) -> Result<(), Failure> {
    let bytes = |sizes: &Sizes| 16 * (sizes.half_words + sizes.table_words) + buffers(sizes);
    room(shape.widths, shape.n, shape.k, 1, bytes).map(|_| ())
}

/// How many times there is memory for what these sizes take, up to so many; fails where it is not there once.
fn room(
    widths: Widths,
    n: usize,
    k: usize,
    most: usize,
    bytes: impl Fn(&Sizes) -> usize,
) -> Result<usize, Failure> {
    // The library refuses parameters that no deposit has; there is nothing to make room for.
    let bytes = match Sizes::of(widths, n, k) {
        Ok(sizes) => bytes(&sizes),
        Err(_) => return Ok(most),
    };
    let room = |times: &usize| Vec::<u8>::new().try_reserve_exact(times * bytes).is_ok();
    (1..=most).rev().find(room).ok_or_else(|| {
        Failure(format!(
            "there is not enough memory: this file with k = {k} takes {} MiB",
            bytes >> 20
        ))
    })
}

/// The n of a table of a file of so many bytes.
pub fn variables(bytes: usize) -> usize {
    words_of(bytes).trailing_zeros() as usize
}

/// The words of a table of a file of so many bytes: a power of two.
fn words_of(bytes: usize) -> usize {
    ((bytes + 15) / 16 + 1).next_power_of_two().max(2)
}

#[cfg(test)]
mod tests {
    use super::{table_in, table_of, MOST_BYTES};
    use dequmlo::Word;

    #[test]
    fn a_small_file() {
        assert_eq!(table_of(b"").unwrap(), [Word(0), Word(0)]);
        assert_eq!(table_of(b"\x01\x02").unwrap(), [Word(0x0201), Word(2)]);
        assert_eq!(
            table_of(&[255; 17]).unwrap(),
            [Word(u128::MAX), Word(255), Word(0), Word(17)]
        );
    }

    #[test]
    fn nothing_of_the_table_before_stays() {
        let mut table = table_of(&[255; 100]).unwrap();
        for bytes in [&[1; 17][..], &[2; 100], b"", &[3; 200]] {
            table_in(&mut table, bytes).unwrap();
            assert_eq!(table, table_of(bytes).unwrap());
        }
    }

    #[test]
    fn the_length_never_shares_a_word_with_the_file() {
        assert_eq!(table_of(&[1; 16]).unwrap().len(), 2);
        assert_eq!(table_of(&[1; 32]).unwrap().len(), 4);
        assert_eq!(table_of(&[1; 48]).unwrap().len(), 4);
        assert_eq!(table_of(&[1; 49]).unwrap().len(), 8);
    }

    #[test]
    fn the_largest_file_and_one_byte_more() {
        assert_eq!(table_of(&vec![1; MOST_BYTES]).unwrap().len(), 1 << 20);
        assert!(table_of(&vec![1; MOST_BYTES + 1])
            .unwrap_err()
            .contains("more than 16777200 bytes"));
    }
}
