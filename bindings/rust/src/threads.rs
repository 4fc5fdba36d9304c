//! The work divided over threads. Each part is one call of a proved entry into a slice of its own; that consecutive parts are the whole, whatever
//! the division, is a proved law (crates/theory_laws/proofs/Parts.antt, and Joined.antt of code_parts and tree_parts). Nothing is done here but
//! dividing: lengths are those of the slices, and what a level has is made by the entries from the key, the set of widths, n, k, its number and the base domain.

use crate::key::{self, Key};
use crate::raw;
use crate::refusal::Refusal;
use crate::root::Root;
use crate::sizes::Sizes;
use crate::tree::root_of;
use crate::word::Word;
use std::num::NonZeroUsize;
use std::sync::atomic::{AtomicU32, Ordering};
use std::sync::Mutex;
use std::thread;

/// How many threads do the work. One thread has the whole in a single call; every number gives the same bytes.
///
/// ```
/// use dequmlo::{Deposit, Threads, Widths, Word};
/// let table: Vec<Word> = (0..1024u128).map(Word).collect();
/// let one = Deposit::commit(None, b"example", Widths::Present, 2, &table)?;
/// let three = Deposit::commit_on(Threads::of(3), None, b"example", Widths::Present, 2, &table)?;
/// assert_eq!(one.root(), three.root());
/// # Ok::<(), dequmlo::Refusal>(())
/// ```
#[derive(Clone, Copy, Debug, PartialEq, Eq)]
pub struct Threads(NonZeroUsize);

impl Threads {
    /// This many; 0 is 1.
    #[must_use]
    pub fn of(number: usize) -> Threads {
        Threads(NonZeroUsize::new(number.max(1)).expect("at least 1"))
    }

    /// One for each core that the system says may be used; one where it says nothing.
    #[must_use]
    pub fn all() -> Threads {
        Threads::of(thread::available_parallelism().map_or(1, usize::from))
    }

    /// How many.
    #[must_use]
    pub fn number(self) -> usize {
        self.0.get()
    }
}

/// How many entries of a fold, or words under leaves with the parents above them, are a part: enough that handing one out costs nothing beside it, and
/// few enough that a part stays in a core's cache and that no thread waits long for the last one. A part of a tree has 512 leaves of 8 words, or 128 of 32.
const ENTRIES: usize = 1 << 13;
const WORDS: usize = 1 << 12;

/// Digests of a tree, 32 bytes each, made already or not.
type Digests = [u8];

/// The heights of a tree from the lowest on, divided into so many parts: a list of heights for each, up to that at which a part has one digest.
fn heights(tree: &mut Digests, parts: usize) -> Vec<Vec<&mut Digests>> {
    let mut divided: Vec<Vec<&mut Digests>> = (0..parts).map(|_| Vec::new()).collect();
    let (mut size, mut rest) = ((tree.len() + 32) / 2 / parts, tree);
    while size >= 32 {
        let (height, above) = rest.split_at_mut(size * parts);
        for (part, digests) in divided.iter_mut().zip(height.chunks_mut(size)) {
            part.push(digests);
        }
        (size, rest) = (size / 2, above);
    }
    divided
}

/// Hands out parts of a whole, each a thread's own: a thread takes the next one until none is left. The answer is a refusal of one of the parts, if
/// there is one.
fn in_parts<P>(
    threads: Threads,
    parts: impl Iterator<Item = P> + Send,
    make: impl Fn(P) -> u32 + Sync,
) -> Result<(), Refusal> {
    let (count, _) = parts.size_hint();
    let left = Mutex::new(parts);
    let refused = AtomicU32::new(0);
    let work = || loop {
        let next = left.lock().expect("no thread panics").next();
        match next.map(&make) {
            Some(0) => {}
            Some(number) => return refused.store(number, Ordering::Relaxed),
            None => return,
        }
    };
    thread::scope(|scope| {
        for _ in 1..threads.number().min(count) {
            scope.spawn(work);
        }
        work();
    });
    Refusal::unless_done(refused.into_inner())
}

/// What a commitment's entries are told of it.
pub(crate) struct Commitment<'a> {
    pub threads: Threads,
    pub key: Option<&'a Key>,
    pub sizes: Sizes,
    pub base: &'a [u8],
}

impl Commitment<'_> {
    /// The gammas, the codeword and level 0's tree: what `dequmlo_commit` leaves beside the codeword's list.
    pub fn commit(
        &self,
        table: &[u64],
        gammas: &mut [u64],
        codeword: &mut [u64],
        tree: &mut Digests,
    ) -> Result<(), Refusal> {
        let Sizes { n, k, .. } = self.sizes;
        Refusal::unless_done(unsafe {
            raw::dequmlo_gammas(
                n,
                k,
                self.base.as_ptr(),
                self.base.len(),
                gammas.as_mut_ptr(),
                gammas.len(),
            )
        })?;
        self.encode(table, gammas, codeword)?;
        self.tree(0, codeword, tree)
    }

    /// The codeword. Block 0 is a copy. Of the others as many are made whole as give every thread the same number, and the rest in halves, which cost a
    /// little more than blocks; the copy comes last.
    fn encode(&self, table: &[u64], gammas: &[u64], codeword: &mut [u64]) -> Result<(), Refusal> {
        let Sizes { n, k, .. } = self.sizes;
        let (block, threads) = (table.len(), self.threads.number());
        let whole = ((1 << k) - 1) / threads * threads;
        let (first, made) = codeword.split_at_mut(block);
        let (blocks, rest) = made.split_at_mut(whole * block);
        let blocks = (1..).zip(blocks.chunks_mut(block));
        let halves = (2 * (1 + whole)..).zip(rest.chunks_mut(block / 2));
        let copies = first.chunks_mut(block / 2).enumerate();
        let parts = blocks.chain(halves).chain(copies);
        in_parts(self.threads, parts, |(number, part)| {
            let make = if part.len() == block {
                raw::dequmlo_codeword_block
            } else {
                raw::dequmlo_codeword_half
            };
            unsafe {
                make(
                    n,
                    k,
                    number,
                    table.as_ptr(),
                    table.len(),
                    gammas.as_ptr(),
                    gammas.len(),
                    part.as_mut_ptr(),
                    part.len(),
                )
            }
        })
    }

    /// The level after a level, by its challenge.
    fn next(&self, level: usize, r: Word, values: &[u64], out: &mut [u64]) -> Result<(), Refusal> {
        let Sizes { n, k, .. } = self.sizes;
        let parts = out.chunks_mut(2 * ENTRIES).enumerate();
        in_parts(self.threads, parts, |(i, part)| unsafe {
            raw::dequmlo_next_part(
                n,
                k,
                level,
                r.raw(),
                i * ENTRIES,
                values.as_ptr(),
                values.len(),
                part.as_mut_ptr(),
                part.len(),
            )
        })
    }

    /// A level's tree: parts of some leaves and all parents above them, then what is above the parts. Of its 2 × leaves − 1 digests the first
    /// `leaves` are leaves, and each height stands behind the one below.
    fn tree(&self, level: usize, values: &[u64], tree: &mut Digests) -> Result<(), Refusal> {
        let leaves = (tree.len() + 32) / 64;
        let parts = (values.len() / 2 / WORDS).max(1);
        let each = leaves / parts;
        let divided = heights(tree, parts).into_iter().enumerate();
        in_parts(self.threads, divided, |(i, mut part)| {
            match self.leaves(level, i * each, values, part[0]) {
                0 => self.parents(level, 0, &mut part),
                number => number,
            }
        })?;
        // The roots of the parts are the lowest height of what is left.
        let top = tree.len() - 32 * (2 * parts - 1);
        let lowest = each.trailing_zeros() as usize;
        let above = &mut heights(&mut tree[top..], 1)[0];
        Refusal::unless_done(self.parents(level, lowest, above))
    }

    /// Leaves of a level's tree, from this one on.
    fn leaves(&self, level: usize, first: usize, values: &[u64], out: &mut Digests) -> u32 {
        let Sizes { widths, n, k, .. } = self.sizes;
        unsafe {
            raw::dequmlo_level_leaves(
                key::raw(self.key),
                widths.number(),
                n,
                k,
                level,
                self.base.as_ptr(),
                self.base.len(),
                first,
                values.as_ptr(),
                values.len(),
                out.as_mut_ptr(),
                out.len(),
            )
        }
    }

    /// Heights of a part of a level's tree, each from the one below; the first is made already, and this many are below it.
    fn parents(&self, level: usize, lowest: usize, heights: &mut [&mut Digests]) -> u32 {
        let Sizes { n, k, .. } = self.sizes;
        for i in 1..heights.len() {
            let (below, above) = heights.split_at_mut(i);
            let (children, out) = (&*below[i - 1], &mut *above[0]);
            let number = unsafe {
                raw::dequmlo_level_parents(
                    key::raw(self.key),
                    n,
                    k,
                    level,
                    self.base.as_ptr(),
                    self.base.len(),
                    lowest + i - 1,
                    children.as_ptr(),
                    children.len(),
                    out.as_mut_ptr(),
                    out.len(),
                )
            };
            if number != 0 {
                return number;
            }
        }
        0
    }

    /// The levels behind one that stands, by a challenge each, and their trees behind its tree. Their roots. From level 0 on, by n challenges, this is what
    /// `dequmlo_fold_levels` leaves where level 0's tree stands already.
    pub fn fold(
        &self,
        from: usize,
        challenges: &[Word],
        levels: &mut [u64],
        trees: &mut Digests,
    ) -> Result<Vec<Root>, Refusal> {
        let made = |(level, r): (usize, &Word)| {
            let next = self.sizes.place(level + 1)?.values;
            let (standing, room) = levels.split_at_mut(next.start);
            let values = &standing[self.sizes.place(level)?.values];
            self.next(level, *r, values, &mut room[..next.len()])?;
            self.root(level + 1, levels, trees)
        };
        (from..).zip(challenges).map(made).collect()
    }

    /// Makes the tree of a level that stands. Its root.
    pub fn root(&self, level: usize, levels: &[u64], trees: &mut Digests) -> Result<Root, Refusal> {
        let place = self.sizes.place(level)?;
        let tree = &mut trees[place.tree];
        self.tree(level, &levels[place.values], tree)?;
        Ok(root_of(tree))
    }

    /// Whether the level behind a level is that level folded by r. The fold is made anew in the room for one.
    pub fn follows(
        &self,
        level: usize,
        r: Word,
        levels: &[u64],
        room: &mut [u64],
    ) -> Result<bool, Refusal> {
        let (values, next) = (self.sizes.place(level)?, self.sizes.place(level + 1)?);
        let fold = &mut room[..next.values.len()];
        self.next(level, r, &levels[values.values], fold)?;
        Ok(levels[next.values] == *fold)
    }
}
