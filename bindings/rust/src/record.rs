//! Records, and the statement under which they are checked and compared.

use crate::key::{self, Key};
use crate::raw;
use crate::refusal::Refusal;
use crate::root::Root;
use crate::sizes::Sizes;
use crate::widths::Widths;
use crate::word::{halves, Word};

/// The bytes of a query record. Bytes that came from elsewhere may be anything: the check says what they are worth.
#[derive(Clone, Debug, PartialEq, Eq)]
pub struct QueryRecord(Vec<u8>);

/// The bytes of a tail record.
#[derive(Clone, Debug, PartialEq, Eq)]
pub struct TailRecord(Vec<u8>);

impl From<Vec<u8>> for QueryRecord {
    fn from(bytes: Vec<u8>) -> QueryRecord {
        QueryRecord(bytes)
    }
}

impl From<Vec<u8>> for TailRecord {
    fn from(bytes: Vec<u8>) -> TailRecord {
        TailRecord(bytes)
    }
}

impl QueryRecord {
    /// The record's bytes.
    #[must_use]
    pub fn bytes(&self) -> &[u8] {
        &self.0
    }

    /// What it shows of each level, level 0 first, by the record's own counts; none where it does not read whole. Only a check says whether it
    /// is true.
    #[must_use]
    pub fn levels(&self) -> Option<Vec<ShownLevel>> {
        let mut rest = &self.0[..];
        let mut levels = Vec::new();
        for _ in 0..count(&mut rest)? {
            levels.push(ShownLevel {
                a: Word::of_bytes(taken(&mut rest, 16)?),
                b: Word::of_bytes(taken(&mut rest, 16)?),
                c: Word::of_bytes(taken(&mut rest, 16)?),
                a_group: group(&mut rest)?,
                c_group: group(&mut rest)?,
                a_path: path(&mut rest)?,
                c_path: path(&mut rest)?,
            });
        }
        rest.is_empty().then_some(levels)
    }
}

/// What a query record shows of one level.
#[derive(Clone, Debug, PartialEq, Eq)]
pub struct ShownLevel {
    /// The pair's first word.
    pub a: Word,
    /// The pair's second word.
    pub b: Word,
    /// What they fold to on the next level.
    pub c: Word,
    /// The words of the group of a and b.
    pub a_group: Vec<Word>,
    /// The words of the group of c.
    pub c_group: Vec<Word>,
    /// The path of the group of a and b.
    pub a_path: Vec<[u8; 32]>,
    /// The path of the group of c.
    pub c_path: Vec<[u8; 32]>,
}

impl TailRecord {
    /// The record's bytes.
    #[must_use]
    pub fn bytes(&self) -> &[u8] {
        &self.0
    }

    /// The words that its groups show, in order, by the record's own counts; none where it does not read whole. Of an accepted record they are
    /// the last level.
    #[must_use]
    pub fn words(&self) -> Option<Vec<Word>> {
        let mut rest = &self.0[..];
        let mut words = Vec::new();
        for _ in 0..count(&mut rest)? {
            words.extend(group(&mut rest)?);
            path(&mut rest)?;
        }
        rest.is_empty().then_some(words)
    }
}

/// A group's words, taken off the front.
fn group(rest: &mut &[u8]) -> Option<Vec<Word>> {
    let words = run(rest, 16)?.chunks_exact(16);
    Some(words.map(Word::of_bytes).collect())
}

/// A path's digests, taken off the front.
fn path(rest: &mut &[u8]) -> Option<Vec<[u8; 32]>> {
    let digests = run(rest, 32)?.chunks_exact(32);
    Some(
        digests
            .map(|d| d.try_into().expect("chunks of 32"))
            .collect(),
    )
}

/// A count of 4 bytes, taken off the front.
fn count(rest: &mut &[u8]) -> Option<usize> {
    let bytes = taken(rest, 4)?;
    Some(u32::from_le_bytes(bytes.try_into().expect("4 bytes")) as usize)
}

/// A count and as many items of a size, taken off the front: the items.
fn run<'a>(rest: &mut &'a [u8], item: usize) -> Option<&'a [u8]> {
    let size = count(rest)? * item;
    taken(rest, size)
}

fn taken<'a>(rest: &mut &'a [u8], size: usize) -> Option<&'a [u8]> {
    if rest.len() < size {
        return None;
    }
    let (front, behind) = rest.split_at(size);
    *rest = behind;
    Some(front)
}

/// Two messages that differ and have one BLAKE3 digest under the statement's key, or under none.
#[derive(Clone, Debug, PartialEq, Eq)]
pub struct Collision {
    /// The first record's message.
    pub first: Vec<u8>,
    /// The second record's message.
    pub second: Vec<u8>,
}

/// The bytes of a buffer for a message of a comparison; the longest has 818.
const MESSAGE_BYTES: usize = 1024;

/// What records are checked under: the key or none, the base domain, the set of widths, n, k, one challenge for each variable, and the roots of levels 0 to n. It
/// keeps a copy of the key. Under another key than the deposit's, or under none, a query record is refused with 18 at level 0 and a tail record with 30.
#[derive(Clone, Debug, PartialEq, Eq)]
pub struct Statement {
    key: Option<Key>,
    base: Vec<u8>,
    sizes: Sizes,
    challenges: Vec<u64>,
    roots: Vec<u8>,
}

impl Statement {
    /// Refused with 4 where n is not from 1 to 20 or k is above 4, with 5 where there are not n challenges or n + 1 roots, with 7 where
    /// the base domain has more than 200 bytes.
    pub fn new(
        key: Option<&Key>,
        base: &[u8],
        widths: Widths,
        n: usize,
        k: usize,
        challenges: &[Word],
        roots: &[Root],
    ) -> Result<Statement, Refusal> {
        let sizes = Sizes::of(widths, n, k)?;
        if challenges.len() != n || roots.len() != n + 1 {
            return Err(Refusal::of(5));
        }
        if base.len() > 200 {
            return Err(Refusal::of(7));
        }
        Ok(Statement {
            key: key.cloned(),
            base: base.to_vec(),
            sizes,
            challenges: halves(challenges).to_vec(),
            roots: roots.iter().flat_map(|r| r.0).collect(),
        })
    }

    /// What the set of widths, n and k fix.
    #[must_use]
    pub fn sizes(&self) -> Sizes {
        self.sizes
    }

    /// Accepts a query record at a position, or names the check that failed.
    pub fn check_query(&self, position: usize, record: &QueryRecord) -> Result<(), Refusal> {
        let answer = unsafe {
            raw::dequmlo_check_query(
                key::raw(self.key.as_ref()),
                self.base.as_ptr(),
                self.base.len(),
                self.sizes.widths.number(),
                self.sizes.n,
                self.sizes.k,
                position,
                self.challenges.as_ptr(),
                self.challenges.len(),
                self.roots.as_ptr(),
                self.roots.len(),
                record.0.as_ptr(),
                record.0.len(),
            )
        };
        match answer.number {
            0 => Ok(()),
            number @ 16..=26 => Err(Refusal {
                number,
                level: Some(answer.level),
            }),
            number => Err(Refusal::of(number)),
        }
    }

    /// Accepts a tail record against the terminal claim, or names the check that failed.
    pub fn check_tail(&self, claim: Word, record: &TailRecord) -> Result<(), Refusal> {
        let root = &self.roots[self.roots.len() - 32..];
        Refusal::unless_done(unsafe {
            raw::dequmlo_check_tail(
                key::raw(self.key.as_ref()),
                self.base.as_ptr(),
                self.base.len(),
                self.sizes.widths.number(),
                self.sizes.n,
                self.sizes.k,
                root.as_ptr(),
                root.len(),
                claim.raw(),
                record.0.as_ptr(),
                record.0.len(),
            )
        })
    }

    /// Compares two records that are both accepted at a position: where they differ, two messages that differ and have one digest. Refused
    /// with 32 where one is not accepted, with 33 where they are the same.
    pub fn compare(
        &self,
        position: usize,
        first: &QueryRecord,
        second: &QueryRecord,
    ) -> Result<Collision, Refusal> {
        let mut messages = [[0u8; MESSAGE_BYTES]; 2];
        let [a, b] = &mut messages;
        let answer = unsafe {
            raw::dequmlo_compare(
                key::raw(self.key.as_ref()),
                self.base.as_ptr(),
                self.base.len(),
                self.sizes.widths.number(),
                self.sizes.n,
                self.sizes.k,
                position,
                self.challenges.as_ptr(),
                self.challenges.len(),
                self.roots.as_ptr(),
                self.roots.len(),
                first.0.as_ptr(),
                first.0.len(),
                second.0.as_ptr(),
                second.0.len(),
                a.as_mut_ptr(),
                a.len(),
                b.as_mut_ptr(),
                b.len(),
            )
        };
        Refusal::unless_done(answer.number)?;
        Ok(Collision {
            first: a[..answer.first].to_vec(),
            second: b[..answer.second].to_vec(),
        })
    }
}
