//! The sizes that the set of widths, n and k fix. The archive refuses any other with 5.

use crate::raw;
use crate::refusal::Refusal;
use crate::widths::Widths;
use std::ops::Range;

/// What the set of widths, n and k fix: how many words and bytes each buffer has. Trees and records are those of the set; the rest is the same under both.
///
/// ```
/// use dequmlo::{Sizes, Widths};
/// let sizes = Sizes::of(Widths::Present, 18, 2).unwrap();
/// assert_eq!(sizes.codeword_words, 1 << 20);
/// assert_eq!(sizes.query_bytes, 14_884);
/// assert_eq!(sizes.tail_bytes, 148);
/// let wide = Sizes::of(Widths::Wide, 18, 2).unwrap();
/// assert_eq!((wide.codeword_words, wide.query_bytes), (1 << 20, 24_036));
/// assert_eq!(Sizes::of(Widths::Present, 21, 0).unwrap_err().number, 4);
/// ```
#[derive(Clone, Copy, Debug, PartialEq, Eq)]
pub struct Sizes {
    /// The set of the groups' widths.
    pub widths: Widths,
    /// n: the table has 2^n words.
    pub n: usize,
    /// k: the codeword has 2^k blocks.
    pub k: usize,
    /// The words of the table.
    pub table_words: usize,
    /// The gammas.
    pub gamma_words: usize,
    /// The words of the codeword, which is level 0.
    pub codeword_words: usize,
    /// The bytes of level 0's tree.
    pub tree_bytes: usize,
    /// The words of all levels.
    pub levels_words: usize,
    /// The bytes of all levels' trees.
    pub trees_bytes: usize,
    /// The words of the room that folding takes beside the levels: half a codeword.
    pub half_words: usize,
    /// The words of the last level.
    pub last_level_words: usize,
    /// The bytes of the last level's tree.
    pub last_tree_bytes: usize,
    /// The bytes of the roots of all levels.
    pub roots_bytes: usize,
    /// The bytes of a query record.
    pub query_bytes: usize,
    /// The bytes of a tail record.
    pub tail_bytes: usize,
}

impl Sizes {
    /// The sizes for n from 1 to 20 and k up to 4; any others are refused with 4.
    pub fn of(widths: Widths, n: usize, k: usize) -> Result<Sizes, Refusal> {
        let sizes = unsafe { raw::dequmlo_sizes(widths.number(), n, k) };
        Refusal::unless_done(sizes.number)?;
        Ok(Sizes {
            widths,
            n,
            k,
            table_words: sizes.table,
            gamma_words: sizes.gammas,
            codeword_words: sizes.codeword,
            tree_bytes: sizes.tree,
            levels_words: sizes.levels,
            trees_bytes: sizes.trees,
            half_words: sizes.half,
            last_level_words: sizes.last_level,
            last_tree_bytes: sizes.last_tree,
            roots_bytes: sizes.roots,
            query_bytes: sizes.query,
            tail_bytes: sizes.tail,
        })
    }

    /// The words of a level and the bytes of its tree. A level before the last is as long as the codeword of a deposit that has the rest of the variables.
    pub(crate) fn of_level(&self, level: usize) -> Result<(usize, usize), Refusal> {
        match self.n.checked_sub(level) {
            None => Err(Refusal::of(4)),
            Some(0) => Ok((self.last_level_words, self.last_tree_bytes)),
            Some(rest) => {
                let rest = Sizes::of(self.widths, rest, self.k)?;
                Ok((rest.codeword_words, rest.tree_bytes))
            }
        }
    }

    /// Where a level stands in the room for all of them.
    pub(crate) fn place(&self, level: usize) -> Result<Place, Refusal> {
        let mut place = Place::default();
        for l in 0..=level {
            place = place.behind(self.of_level(l)?);
        }
        Ok(place)
    }
}

/// Where a level's values stand among the halves of all levels, and its tree among all trees.
#[derive(Default)]
pub(crate) struct Place {
    pub values: Range<usize>,
    pub tree: Range<usize>,
}

impl Place {
    /// That of so many words and bytes of a tree behind this one.
    fn behind(self, (words, bytes): (usize, usize)) -> Place {
        let (values, tree) = (self.values.end, self.tree.end);
        Place {
            values: values..values + 2 * words,
            tree: tree..tree + bytes,
        }
    }
}

#[cfg(test)]
mod tests {
    use super::{Sizes, Widths};
    use crate::key;
    use crate::raw;

    /// The archive asks for lengths (5) before it asks for the position (11) or the base domain (7), so these answers say that every
    /// length was the one that it wants. The buffers are never touched.
    #[test]
    fn the_archive_wants_these_sizes() {
        for widths in Widths::ALL {
            for (n, k) in (1..=20).flat_map(|n| (0..=4).map(move |k| (n, k))) {
                wants(Sizes::of(widths, n, k).unwrap());
            }
        }
    }

    /// The last level ends where the room does, and there is no level behind it.
    #[test]
    fn the_levels_fill_their_room() {
        for widths in Widths::ALL {
            for (n, k) in (1..=20).flat_map(|n| (0..=4).map(move |k| (n, k))) {
                let sizes = Sizes::of(widths, n, k).unwrap();
                let (first, last) = (sizes.place(0).unwrap(), sizes.place(n).unwrap());
                assert_eq!(first.values, 0..2 * sizes.codeword_words);
                assert_eq!(first.tree, 0..sizes.tree_bytes);
                assert_eq!(last.values.end, 2 * sizes.levels_words);
                assert_eq!(last.tree.end, sizes.trees_bytes);
                assert_eq!(sizes.place(n + 1).err().unwrap().number, 4);
            }
        }
    }

    fn wants(sizes: Sizes) {
        let Sizes { widths, n, k, .. } = sizes;
        let mut levels = vec![0u64; 2 * sizes.levels_words];
        let mut trees = vec![0u8; sizes.trees_bytes];
        let mut out = vec![0u8; sizes.query_bytes];
        let built = unsafe {
            raw::dequmlo_build_query(
                out.as_mut_ptr(),
                out.len(),
                levels.as_ptr(),
                levels.len(),
                trees.as_ptr(),
                trees.len(),
                widths.number(),
                n,
                k,
                usize::MAX,
            )
        };
        assert_eq!(built, 11, "{widths} n {n} k {k}");
        let table = vec![0u64; 2 * sizes.table_words];
        let mut gammas = vec![0u64; 2 * sizes.gamma_words];
        let mut coordinates = vec![0usize; n];
        let base = [0u8; 201];
        let committed = unsafe {
            raw::dequmlo_commit(
                key::raw(None),
                widths.number(),
                n,
                k,
                base.as_ptr(),
                base.len(),
                table.as_ptr(),
                table.len(),
                gammas.as_mut_ptr(),
                gammas.len(),
                levels.as_mut_ptr(),
                2 * sizes.codeword_words,
                coordinates.as_mut_ptr(),
                coordinates.len(),
                trees.as_mut_ptr(),
                sizes.tree_bytes,
            )
        };
        assert_eq!(committed, 7, "{widths} n {n} k {k}");
        let challenges = vec![0u64; 2 * n];
        let mut half = vec![0u64; 2 * sizes.half_words];
        let mut roots = vec![0u8; sizes.roots_bytes];
        let folded = unsafe {
            raw::dequmlo_fold_levels(
                key::raw(None),
                widths.number(),
                n,
                k,
                base.as_ptr(),
                base.len(),
                challenges.as_ptr(),
                challenges.len(),
                levels.as_mut_ptr(),
                levels.len(),
                half.as_mut_ptr(),
                half.len(),
                trees.as_mut_ptr(),
                trees.len(),
                roots.as_mut_ptr(),
                roots.len(),
            )
        };
        assert_eq!(folded, 7, "{widths} n {n} k {k}");
    }
}
