//! Query and tail records, and the bytes of SPECIFICATION 7 for them.
//!
//! The Rust has no record bytes: the format, and with it question 14, is ours.

use crate::{Digest, Word};

/// One level of a query record.
#[derive(Clone, Debug, PartialEq, Eq)]
pub struct Level {
    pub a: Word,
    pub b: Word,
    pub c: Word,
    pub a_group: Vec<Word>,
    pub c_group: Vec<Word>,
    pub a_path: Vec<Digest>,
    pub c_path: Vec<Digest>,
}

/// A query record.
#[derive(Clone, Debug, PartialEq, Eq)]
pub struct Query {
    pub levels: Vec<Level>,
}

/// One group of a tail record.
#[derive(Clone, Debug, PartialEq, Eq)]
pub struct Group {
    pub values: Vec<Word>,
    pub path: Vec<Digest>,
}

/// A tail record.
#[derive(Clone, Debug, PartialEq, Eq)]
pub struct Tail {
    pub groups: Vec<Group>,
}

impl Query {
    pub fn to_bytes(&self) -> Vec<u8> {
        let mut out = Vec::new();
        put_count(&mut out, self.levels.len());
        for level in &self.levels {
            for word in [level.a, level.b, level.c] {
                put_word(&mut out, word);
            }
            put_words(&mut out, &level.a_group);
            put_words(&mut out, &level.c_group);
            put_digests(&mut out, &level.a_path);
            put_digests(&mut out, &level.c_path);
        }
        out
    }

    /// The record, if the bytes are one, whole, and nothing follows.
    pub fn from_bytes(bytes: &[u8]) -> Option<Query> {
        let mut reader = Reader(bytes);
        let count = reader.count()?;
        let levels = reader.list(count, Reader::level)?;
        reader.0.is_empty().then_some(Query { levels })
    }
}

impl Tail {
    pub fn to_bytes(&self) -> Vec<u8> {
        let mut out = Vec::new();
        put_count(&mut out, self.groups.len());
        for group in &self.groups {
            put_words(&mut out, &group.values);
            put_digests(&mut out, &group.path);
        }
        out
    }

    /// The record, if the bytes are one, whole, and nothing follows.
    pub fn from_bytes(bytes: &[u8]) -> Option<Tail> {
        let mut reader = Reader(bytes);
        let count = reader.count()?;
        let groups = reader.list(count, Reader::group)?;
        reader.0.is_empty().then_some(Tail { groups })
    }
}

fn put_count(out: &mut Vec<u8>, count: usize) {
    let count = u32::try_from(count).expect("a count is 4 bytes");
    out.extend_from_slice(&count.to_le_bytes());
}

fn put_word(out: &mut Vec<u8>, word: Word) {
    out.extend_from_slice(&word.0.to_le_bytes());
}

fn put_words(out: &mut Vec<u8>, words: &[Word]) {
    put_count(out, words.len());
    for &word in words {
        put_word(out, word);
    }
}

fn put_digests(out: &mut Vec<u8>, digests: &[Digest]) {
    put_count(out, digests.len());
    out.extend_from_slice(&digests.concat());
}

/// What is left to read.
struct Reader<'a>(&'a [u8]);

impl Reader<'_> {
    fn array<const N: usize>(&mut self) -> Option<[u8; N]> {
        let (front, rest) = self.0.split_first_chunk::<N>()?;
        self.0 = rest;
        Some(*front)
    }

    fn count(&mut self) -> Option<usize> {
        Some(u32::from_le_bytes(self.array()?) as usize)
    }

    fn word(&mut self) -> Option<Word> {
        Some(Word(u128::from_le_bytes(self.array()?)))
    }

    /// `count` items; the list grows as it is read, whatever the count says.
    fn list<T>(&mut self, count: usize, item: impl Fn(&mut Self) -> Option<T>) -> Option<Vec<T>> {
        let mut items = Vec::new();
        for _ in 0..count {
            items.push(item(self)?);
        }
        Some(items)
    }

    fn words(&mut self) -> Option<Vec<Word>> {
        let count = self.count()?;
        self.list(count, Self::word)
    }

    fn digests(&mut self) -> Option<Vec<Digest>> {
        let count = self.count()?;
        self.list(count, Self::array)
    }

    fn level(&mut self) -> Option<Level> {
        Some(Level {
            a: self.word()?,
            b: self.word()?,
            c: self.word()?,
            a_group: self.words()?,
            c_group: self.words()?,
            a_path: self.digests()?,
            c_path: self.digests()?,
        })
    }

    fn group(&mut self) -> Option<Group> {
        Some(Group {
            values: self.words()?,
            path: self.digests()?,
        })
    }
}
