//! A deposit folded part way, which can be kept and taken up again.

use crate::buffers::Buffers;
use crate::deposit::{described, Folded};
use crate::key::Key;
use crate::refusal::Refusal;
use crate::root::Root;
use crate::sizes::Sizes;
use crate::threads::{Commitment, Threads};
use crate::widths::Widths;
use crate::word::{bytes, bytes_mut, words, Word};
use std::fmt;
use std::io;

/// A deposit folded by some of its challenges ([`crate::Deposit::fold_until`]): the levels so far and their trees. It is folded on to the end by
/// [`HalfFolded::fold_on`]. To go on another day, [`HalfFolded::kept`] and the values of each level are kept, and taken up by [`HalfFolded::take_up`], which
/// checks them: what comes of it is what one run gives, or it is refused. It keeps a copy of the deposit's key; what is stored does not have the key, so that
/// taking up is told it.
///
/// ```
/// use dequmlo::{Deposit, HalfFolded, Threads, Widths, Word};
///
/// let (one, table, challenges) = (Threads::of(1), [5, 9, 4, 2].map(Word), [7, 11].map(Word));
/// let deposit = || Deposit::commit(None, b"example", Widths::Present, 1, &table);
/// let half = deposit()?.fold_until(one, &challenges[..1])?;
/// assert_eq!((half.level(), half.coordinates()), (1, vec![1]));
///
/// // What is kept, and what it is the next day.
/// let kept = half.kept();
/// let values: Vec<Vec<u8>> = (0..=1).map(|level| half.values(level).to_vec()).collect();
/// let read = |level: usize, room: &mut [u8]| Ok(room.copy_from_slice(&values[level]));
/// let half = HalfFolded::take_up(one, None, kept, read).unwrap();
/// assert_eq!(half.fold_on(one, &challenges[1..])?.roots(), deposit()?.fold(&challenges)?.roots());
/// # Ok::<(), dequmlo::Refusal>(())
/// ```
pub struct HalfFolded {
    key: Option<Key>,
    base: Vec<u8>,
    sizes: Sizes,
    buffers: Buffers,
    challenges: Vec<Word>,
    roots: Vec<Root>,
}

/// The shape and the root; the buffers are megabytes.
impl fmt::Debug for HalfFolded {
    fn fmt(&self, f: &mut fmt::Formatter) -> fmt::Result {
        described(f, "HalfFolded", &self.sizes, &self.roots[0])
    }
}

/// What is kept of a deposit folded part way, beside the values of its levels and its key, which the caller keeps elsewhere.
#[derive(Clone, Debug, PartialEq, Eq)]
pub struct Kept {
    /// The base domain.
    pub base: Vec<u8>,
    /// The set of the groups' widths.
    pub widths: Widths,
    /// The n of the table.
    pub n: usize,
    /// The codeword has 2^k blocks.
    pub k: usize,
    /// The challenges that it was folded by.
    pub challenges: Vec<Word>,
    /// The coordinates of the table that are not folded yet, rising.
    pub coordinates: Vec<usize>,
    /// The roots of the levels so far, level 0's first.
    pub roots: Vec<Root>,
}

/// Why what was kept is not taken up.
#[derive(Debug)]
pub enum NotTakenUp {
    /// No deposit has these parameters, or so many challenges.
    Refused(Refusal),
    /// The list of coordinates is not the one that so many folds leave.
    Coordinates,
    /// There is not one root for each level.
    Roots,
    /// The values of a level could not be read.
    Unread(io::Error),
    /// The values of this level have another root than the one that was kept.
    Root(usize),
    /// The values of this level have the root that was kept, and are not the level before folded by its challenge.
    Fold(usize),
}

impl From<Refusal> for NotTakenUp {
    fn from(refusal: Refusal) -> NotTakenUp {
        NotTakenUp::Refused(refusal)
    }
}

impl fmt::Display for NotTakenUp {
    fn fmt(&self, f: &mut fmt::Formatter) -> fmt::Result {
        match self {
            NotTakenUp::Refused(refusal) => write!(f, "{refusal}"),
            NotTakenUp::Coordinates => write!(
                f,
                "the list of coordinates does not hold exactly those that are not folded yet, strictly rising"
            ),
            NotTakenUp::Roots => write!(f, "there is not one root for each level"),
            NotTakenUp::Unread(e) => write!(f, "{e}"),
            NotTakenUp::Root(level) => write!(
                f,
                "the values of level {level} do not have the root that was kept of them"
            ),
            NotTakenUp::Fold(level) => write!(
                f,
                "the values of level {level} are not those of the level before, folded by its challenge"
            ),
        }
    }
}

impl std::error::Error for NotTakenUp {}

impl Kept {
    /// Asks whether the lists fit each other, which every taking up asks first: no more challenges than variables, the coordinates that these leave, and a root
    /// for each level.
    pub fn check(&self) -> Result<(), NotTakenUp> {
        let level = self.challenges.len();
        if level > self.n {
            return Err(Refusal::of(5).into());
        }
        if self.coordinates != unfolded(level, self.n) {
            return Err(NotTakenUp::Coordinates);
        }
        if self.roots.len() != level + 1 {
            return Err(NotTakenUp::Roots);
        }
        Ok(())
    }
}

impl HalfFolded {
    /// A deposit whose level 0 and its tree stand in the buffers.
    pub(crate) fn begun(
        key: Option<Key>,
        base: Vec<u8>,
        sizes: Sizes,
        buffers: Buffers,
        root: Root,
    ) -> HalfFolded {
        HalfFolded {
            key,
            base,
            sizes,
            buffers,
            challenges: Vec::new(),
            roots: vec![root],
        }
    }

    /// Takes up what was kept, under the key that it was committed under, or none. `read` is given the number of each level, from 0 on, and room for its values, which it fills with what
    /// [`HalfFolded::values`] gave. Every tree is made anew from the values and its root compared with the one that was kept, and every level is compared with the
    /// fold of the one before; the first that differs is named, and nothing is made good. Under another key than its own it is level 0's root that differs.
    /// Whose deposit it is says the root of level 0, which the caller compares.
    pub fn take_up(
        threads: Threads,
        key: Option<&Key>,
        kept: Kept,
        mut read: impl FnMut(usize, &mut [u8]) -> io::Result<()>,
    ) -> Result<HalfFolded, NotTakenUp> {
        let sizes = Sizes::of(kept.widths, kept.n, kept.k)?;
        kept.check()?;
        let mut buffers = Buffers::default().with_room(&sizes);
        let (levels, trees) = buffers.folded_mut(&sizes);
        let mut room = vec![0u64; 2 * sizes.half_words];
        let on = Commitment {
            threads,
            key,
            sizes,
            base: &kept.base,
        };
        for (level, root) in kept.roots.iter().enumerate() {
            let values = &mut levels[sizes.place(level)?.values];
            read(level, bytes_mut(values)).map_err(NotTakenUp::Unread)?;
            if on.root(level, levels, trees)? != *root {
                return Err(NotTakenUp::Root(level));
            }
            if level > 0 && !on.follows(level - 1, kept.challenges[level - 1], levels, &mut room)? {
                return Err(NotTakenUp::Fold(level));
            }
        }
        Ok(HalfFolded {
            key: key.cloned(),
            base: kept.base,
            sizes,
            buffers,
            challenges: kept.challenges,
            roots: kept.roots,
        })
    }

    /// The last level that stands: as many as there were challenges.
    #[must_use]
    pub fn level(&self) -> usize {
        self.challenges.len()
    }

    /// The coordinates of the table that are not folded yet, rising: each fold was at variable 0 and dropped the first of those before it.
    #[must_use]
    pub fn coordinates(&self) -> Vec<usize> {
        unfolded(self.level(), self.sizes.n)
    }

    /// The codeword that is folded next: the words of the last level that stands.
    #[must_use]
    pub fn codeword(&self) -> Vec<Word> {
        words(self.halves(self.level()))
    }

    /// The values of a level up to [`HalfFolded::level`], 16 bytes a word, the lowest first.
    ///
    /// # Panics
    /// Where the level does not stand yet.
    #[must_use]
    pub fn values(&self, level: usize) -> &[u8] {
        assert!(level <= self.level(), "level {level} does not stand yet");
        bytes(self.halves(level))
    }

    /// The roots of the levels so far.
    #[must_use]
    pub fn roots(&self) -> Vec<Root> {
        self.roots.clone()
    }

    /// All that is to be kept beside the values of each level and the key.
    #[must_use]
    pub fn kept(&self) -> Kept {
        Kept {
            base: self.base.clone(),
            widths: self.sizes.widths,
            n: self.sizes.n,
            k: self.sizes.k,
            challenges: self.challenges.clone(),
            coordinates: self.coordinates(),
            roots: self.roots(),
        }
    }

    /// Folds by the next challenges, as many as there are. Refused with 5 where there are more than coordinates that are not folded yet.
    pub fn fold_further(
        mut self,
        threads: Threads,
        challenges: &[Word],
    ) -> Result<HalfFolded, Refusal> {
        if challenges.len() > self.sizes.n - self.level() {
            return Err(Refusal::of(5));
        }
        let from = self.level();
        let on = Commitment {
            threads,
            key: self.key.as_ref(),
            sizes: self.sizes,
            base: &self.base,
        };
        let (levels, trees) = self.buffers.folded_mut(&self.sizes);
        self.roots.extend(on.fold(from, challenges, levels, trees)?);
        self.challenges.extend(challenges);
        Ok(self)
    }

    /// Folds by all challenges that are left. Refused with 5 where there are fewer or more than coordinates that are not folded yet.
    pub fn fold_on(self, threads: Threads, challenges: &[Word]) -> Result<Folded, Refusal> {
        if challenges.len() != self.sizes.n - self.level() {
            return Err(Refusal::of(5));
        }
        let whole = self.fold_further(threads, challenges)?;
        Ok(Folded::of(whole.sizes, whole.buffers, whole.roots))
    }

    /// The buffers, for the next deposit.
    #[must_use]
    pub fn into_buffers(self) -> Buffers {
        self.buffers
    }

    fn halves(&self, level: usize) -> &[u64] {
        let place = self.sizes.place(level).expect("the level stands");
        &self.buffers.levels(&self.sizes)[place.values]
    }
}

/// The coordinates that are not folded yet at a level.
fn unfolded(level: usize, n: usize) -> Vec<usize> {
    (level..n).collect()
}
