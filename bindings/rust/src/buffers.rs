//! The buffers of a deposit, which another deposit can have after it.

use crate::sizes::Sizes;
use std::fmt;

/// Buffers for [`crate::Deposit::commit_in`]: none at first, then those of the deposit before, whose pages the system need not make again. One that is too
/// small for a deposit gives way to a new one; one that is larger serves with its front. What they hold is never read before it is written.
///
/// ```
/// use dequmlo::{Buffers, Deposit, Threads, Widths, Word};
/// let mut buffers = Buffers::default();
/// for table in [[Word(5), Word(9)], [Word(6), Word(7)]] {
///     let deposit = Deposit::commit_in(buffers, Threads::of(1), None, b"example", Widths::Present, 1, &table)?;
///     assert_eq!(deposit.root(), Deposit::commit(None, b"example", Widths::Present, 1, &table)?.root());
///     buffers = deposit.into_buffers();
/// }
/// # Ok::<(), dequmlo::Refusal>(())
/// ```
#[derive(Default)]
pub struct Buffers {
    gammas: Vec<u64>,
    levels: Vec<u64>,
    trees: Vec<u8>,
}

/// How large they are; what they hold is megabytes.
impl fmt::Debug for Buffers {
    fn fmt(&self, f: &mut fmt::Formatter) -> fmt::Result {
        f.debug_struct("Buffers")
            .field("gamma_words", &(self.gammas.len() / 2))
            .field("levels_words", &(self.levels.len() / 2))
            .field("trees_bytes", &self.trees.len())
            .finish_non_exhaustive()
    }
}

/// What is given of a buffer is as much as the sizes fix, which the archive asks for: the rest is an earlier deposit's.
impl Buffers {
    /// Buffers that are large enough, these where they are.
    pub(crate) fn with_room(self, sizes: &Sizes) -> Buffers {
        Buffers {
            gammas: large_enough(self.gammas, 2 * sizes.gamma_words),
            levels: large_enough(self.levels, 2 * sizes.levels_words),
            trees: large_enough(self.trees, sizes.trees_bytes),
        }
    }

    /// What committing writes: the gammas, the codeword and level 0's tree.
    pub(crate) fn committed_mut(&mut self, sizes: &Sizes) -> (&mut [u64], &mut [u64], &mut [u8]) {
        (
            &mut self.gammas[..2 * sizes.gamma_words],
            &mut self.levels[..2 * sizes.codeword_words],
            &mut self.trees[..sizes.tree_bytes],
        )
    }

    /// What folding writes: all levels and all trees, level 0 and its tree at their front.
    pub(crate) fn folded_mut(&mut self, sizes: &Sizes) -> (&mut [u64], &mut [u8]) {
        (
            &mut self.levels[..2 * sizes.levels_words],
            &mut self.trees[..sizes.trees_bytes],
        )
    }

    pub(crate) fn gammas(&self, sizes: &Sizes) -> &[u64] {
        &self.gammas[..2 * sizes.gamma_words]
    }

    pub(crate) fn codeword(&self, sizes: &Sizes) -> &[u64] {
        &self.levels[..2 * sizes.codeword_words]
    }

    /// Level 0's tree.
    pub(crate) fn tree(&self, sizes: &Sizes) -> &[u8] {
        &self.trees[..sizes.tree_bytes]
    }

    pub(crate) fn levels(&self, sizes: &Sizes) -> &[u64] {
        &self.levels[..2 * sizes.levels_words]
    }

    pub(crate) fn trees(&self, sizes: &Sizes) -> &[u8] {
        &self.trees[..sizes.trees_bytes]
    }
}

/// This buffer, or a new one where it has fewer elements. A new one is asked of the system as zeros, so that it makes a page when it is first written; the
/// old one is given back before.
fn large_enough<T: Clone + Default>(kept: Vec<T>, needed: usize) -> Vec<T> {
    if kept.len() >= needed {
        return kept;
    }
    drop(kept);
    vec![T::default(); needed]
}

#[cfg(test)]
mod tests {
    use super::Buffers;
    use crate::sizes::Sizes;
    use crate::widths::Widths;

    /// Where each buffer lies, and its length.
    fn places(buffers: &Buffers) -> [(usize, usize); 3] {
        [
            (buffers.gammas.as_ptr() as usize, buffers.gammas.len()),
            (buffers.levels.as_ptr() as usize, buffers.levels.len()),
            (buffers.trees.as_ptr() as usize, buffers.trees.len()),
        ]
    }

    /// Each of the three by itself: n = 4, k = 4 has more gammas than n = 8, k = 1, and fewer words and digests.
    #[test]
    fn what_is_large_enough_is_kept() {
        let sizes = |n, k| Sizes::of(Widths::Present, n, k).unwrap();
        let mut buffers = Buffers::default().with_room(&sizes(8, 1));
        let first = places(&buffers);
        for (n, k) in [(8, 1), (3, 2), (1, 0), (8, 1)] {
            buffers = buffers.with_room(&sizes(n, k));
            assert_eq!(places(&buffers), first, "n {n} k {k}");
        }
        buffers = buffers.with_room(&sizes(4, 4));
        assert_eq!(buffers.gammas.len(), 2 * sizes(4, 4).gamma_words);
        assert_eq!(places(&buffers)[1..], first[1..]);
        let second = places(&buffers);
        buffers = buffers.with_room(&sizes(8, 2));
        assert_eq!(places(&buffers)[0], second[0]);
        assert_eq!(buffers.levels.len(), 2 * sizes(8, 2).levels_words);
        assert_eq!(buffers.trees.len(), sizes(8, 2).trees_bytes);
    }
}
