//! A deposit: its table committed, then folded by the checker's challenges, so that records can be built.

use crate::buffers::Buffers;
use crate::half_folded::HalfFolded;
use crate::key::{self, Key};
use crate::raw;
use crate::record::{QueryRecord, TailRecord};
use crate::refusal::Refusal;
use crate::ring::variables;
use crate::root::Root;
use crate::sizes::Sizes;
use crate::threads::{Commitment, Threads};
use crate::tree::root_of;
use crate::widths::Widths;
use crate::word::{halves, words, Word};
use std::fmt;

/// A committed table: its gammas, its codeword (level 0) and level 0's tree. The buffers have room for all levels, which [`Deposit::fold`]
/// fills; until then the room behind level 0 takes no memory in new buffers, since the system makes a page of zeros when it is first written. It keeps a copy of
/// the key that it was committed under, for the trees of its other levels.
pub struct Deposit {
    key: Option<Key>,
    base: Vec<u8>,
    sizes: Sizes,
    buffers: Buffers,
}

/// The shape and the root; the buffers are megabytes.
impl fmt::Debug for Deposit {
    fn fmt(&self, f: &mut fmt::Formatter) -> fmt::Result {
        described(f, "Deposit", &self.sizes, &self.root())
    }
}

impl Deposit {
    /// Commits a table of 2^n words, n from 1 to 20, under a key or none and a base domain of at most 200 bytes, in groups of a set of widths. Refused with
    /// 5 where the length is no power of two, with 4 where n or k is out of range, with 7 where the base domain is too long. Whoever checks needs the
    /// same key, base domain, set of widths and k.
    ///
    /// ```
    /// use dequmlo::{Deposit, Widths, Word};
    /// let deposit = Deposit::commit(None, b"example", Widths::Present, 1, &[Word(5), Word(9)])?;
    /// assert_eq!(deposit.codeword()[..2], [Word(5), Word(9)]);
    /// assert_eq!(Deposit::commit(None, b"example", Widths::Present, 5, &[Word(5), Word(9)]).err().unwrap().number, 4);
    /// # Ok::<(), dequmlo::Refusal>(())
    /// ```
    pub fn commit(
        key: Option<&Key>,
        base: &[u8],
        widths: Widths,
        k: usize,
        table: &[Word],
    ) -> Result<Deposit, Refusal> {
        Deposit::commit_on(Threads::of(1), key, base, widths, k, table)
    }

    /// The same on this many threads, which give the same bytes: blocks of the codeword and halves of them, and the leaves and parents of its
    /// tree, are divided over them. It needs its buffers and at most 128 KiB of stack a thread.
    pub fn commit_on(
        threads: Threads,
        key: Option<&Key>,
        base: &[u8],
        widths: Widths,
        k: usize,
        table: &[Word],
    ) -> Result<Deposit, Refusal> {
        Deposit::commit_in(Buffers::default(), threads, key, base, widths, k, table)
    }

    /// The same in the buffers of an earlier deposit, of whatever key, widths, n and k, which it has left ([`Deposit::into_buffers`], [`Folded::into_buffers`]); nothing
    /// of that one shows in this one. Where it is refused, the buffers are gone.
    pub fn commit_in(
        buffers: Buffers,
        threads: Threads,
        key: Option<&Key>,
        base: &[u8],
        widths: Widths,
        k: usize,
        table: &[Word],
    ) -> Result<Deposit, Refusal> {
        let sizes = Sizes::of(widths, variables(table.len())?, k)?;
        let mut buffers = buffers.with_room(&sizes);
        let (gammas, codeword, tree) = buffers.committed_mut(&sizes);
        let table = halves(table);
        if threads.number() == 1 {
            commit_whole(key, sizes, base, table, gammas, codeword, tree)?;
        } else {
            let on = Commitment {
                threads,
                key,
                sizes,
                base,
            };
            on.commit(table, gammas, codeword, tree)?;
        }
        Ok(Deposit {
            key: key.cloned(),
            base: base.to_vec(),
            sizes,
            buffers,
        })
    }

    /// The buffers, for the next deposit.
    #[must_use]
    pub fn into_buffers(self) -> Buffers {
        self.buffers
    }

    /// What the set of widths, n and k fix.
    #[must_use]
    pub fn sizes(&self) -> Sizes {
        self.sizes
    }

    /// Level 0's root: what the office keeps.
    #[must_use]
    pub fn root(&self) -> Root {
        root_of(self.buffers.tree(&self.sizes))
    }

    /// The gammas (j, i), j outer.
    #[must_use]
    pub fn gammas(&self) -> Vec<Word> {
        words(self.buffers.gammas(&self.sizes))
    }

    /// The codeword: 2^k blocks, of which the first is the table.
    #[must_use]
    pub fn codeword(&self) -> Vec<Word> {
        words(self.buffers.codeword(&self.sizes))
    }

    /// Folds by one challenge for each variable and builds every level's tree, under the deposit's key. Refused with 5 where there are fewer or more
    /// challenges.
    pub fn fold(mut self, challenges: &[Word]) -> Result<Folded, Refusal> {
        let (sizes, base) = (self.sizes, &self.base);
        let (levels, trees) = self.buffers.folded_mut(&sizes);
        let challenges = halves(challenges);
        let mut half = vec![0u64; 2 * sizes.half_words];
        let mut roots = vec![0u8; sizes.roots_bytes];
        Refusal::unless_done(unsafe {
            raw::dequmlo_fold_levels(
                key::raw(self.key.as_ref()),
                sizes.widths.number(),
                sizes.n,
                sizes.k,
                base.as_ptr(),
                base.len(),
                challenges.as_ptr(),
                challenges.len(),
                levels.as_mut_ptr(),
                levels.len(),
                half.as_mut_ptr(),
                half.len(),
                trees.as_mut_ptr(),
                trees.len(),
                roots.as_mut_ptr(),
                roots.len(),
            )
        })?;
        let roots = roots.chunks_exact(32).map(root_of).collect();
        Ok(Folded::of(sizes, self.buffers, roots))
    }

    /// The same on this many threads, which give the same bytes. On more than one there is no room for a fold beside the levels, and level 0's
    /// tree is not made again.
    pub fn fold_on(self, threads: Threads, challenges: &[Word]) -> Result<Folded, Refusal> {
        if threads.number() == 1 {
            return self.fold(challenges);
        }
        self.begun().fold_on(threads, challenges)
    }

    /// Folds by the first challenges, as many as there are, and builds the trees of their levels; the rest is left for later. Refused with 5 where there are
    /// more challenges than variables. Every number of threads gives the same bytes.
    pub fn fold_until(self, threads: Threads, challenges: &[Word]) -> Result<HalfFolded, Refusal> {
        self.begun().fold_further(threads, challenges)
    }

    /// The deposit with level 0 alone.
    fn begun(self) -> HalfFolded {
        let root = self.root();
        HalfFolded::begun(self.key, self.base, self.sizes, self.buffers, root)
    }
}

/// The gammas, the codeword and level 0's tree of a table's halves in a single call. The codeword's list, 0 to n - 1 whatever the table, is not kept.
fn commit_whole(
    key: Option<&Key>,
    sizes: Sizes,
    base: &[u8],
    table: &[u64],
    gammas: &mut [u64],
    codeword: &mut [u64],
    tree: &mut [u8],
) -> Result<(), Refusal> {
    let mut coordinates = vec![0usize; sizes.n];
    Refusal::unless_done(unsafe {
        raw::dequmlo_commit(
            key::raw(key),
            sizes.widths.number(),
            sizes.n,
            sizes.k,
            base.as_ptr(),
            base.len(),
            table.as_ptr(),
            table.len(),
            gammas.as_mut_ptr(),
            gammas.len(),
            codeword.as_mut_ptr(),
            codeword.len(),
            coordinates.as_mut_ptr(),
            coordinates.len(),
            tree.as_mut_ptr(),
            tree.len(),
        )
    })
}

/// A deposit folded by a list of challenges: all levels and their trees, from which records are built. It has no key: building a record hashes nothing.
pub struct Folded {
    sizes: Sizes,
    buffers: Buffers,
    roots: Vec<Root>,
}

/// The shape and the root; the buffers are megabytes.
impl fmt::Debug for Folded {
    fn fmt(&self, f: &mut fmt::Formatter) -> fmt::Result {
        described(f, "Folded", &self.sizes, &self.roots[0])
    }
}

pub(crate) fn described(
    f: &mut fmt::Formatter,
    name: &str,
    sizes: &Sizes,
    root: &Root,
) -> fmt::Result {
    f.debug_struct(name)
        .field("widths", &sizes.widths)
        .field("n", &sizes.n)
        .field("k", &sizes.k)
        .field("root", &format_args!("{root}"))
        .finish_non_exhaustive()
}

impl Folded {
    /// All levels and their trees stand in the buffers.
    pub(crate) fn of(sizes: Sizes, buffers: Buffers, roots: Vec<Root>) -> Folded {
        Folded {
            sizes,
            buffers,
            roots,
        }
    }

    /// The roots of levels 0 to n.
    #[must_use]
    pub fn roots(&self) -> Vec<Root> {
        self.roots.clone()
    }

    /// The last level: 2^k words, of which the first is the terminal claim.
    #[must_use]
    pub fn last_level(&self) -> Vec<Word> {
        words(self.last_halves())
    }

    /// The terminal claim: the table's multilinear extension at the challenges.
    #[must_use]
    pub fn claim(&self) -> Word {
        self.last_level()[0]
    }

    /// The query record at a position below 2^(n+k).
    pub fn query(&self, position: usize) -> Result<QueryRecord, Refusal> {
        let (levels, trees) = (
            self.buffers.levels(&self.sizes),
            self.buffers.trees(&self.sizes),
        );
        let mut out = vec![0u8; self.sizes.query_bytes];
        Refusal::unless_done(unsafe {
            raw::dequmlo_build_query(
                out.as_mut_ptr(),
                out.len(),
                levels.as_ptr(),
                levels.len(),
                trees.as_ptr(),
                trees.len(),
                self.sizes.widths.number(),
                self.sizes.n,
                self.sizes.k,
                position,
            )
        })?;
        Ok(QueryRecord::from(out))
    }

    /// The tail record.
    pub fn tail(&self) -> Result<TailRecord, Refusal> {
        let level = self.last_halves();
        let trees = self.buffers.trees(&self.sizes);
        let tree = &trees[trees.len() - self.sizes.last_tree_bytes..];
        let mut out = vec![0u8; self.sizes.tail_bytes];
        Refusal::unless_done(unsafe {
            raw::dequmlo_build_tail(
                out.as_mut_ptr(),
                out.len(),
                level.as_ptr(),
                level.len(),
                tree.as_ptr(),
                tree.len(),
                self.sizes.widths.number(),
                self.sizes.n,
                self.sizes.k,
            )
        })?;
        Ok(TailRecord::from(out))
    }

    /// The buffers, for the next deposit.
    #[must_use]
    pub fn into_buffers(self) -> Buffers {
        self.buffers
    }

    fn last_halves(&self) -> &[u64] {
        let levels = self.buffers.levels(&self.sizes);
        &levels[levels.len() - 2 * self.sizes.last_level_words..]
    }
}
