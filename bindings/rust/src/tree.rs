//! The digest, trees over groups of words under a key or none, and their paths.

use crate::key::{self, Key};
use crate::raw;
use crate::refusal::Refusal;
use crate::root::Root;
use crate::sizes::Sizes;
use crate::widths::Widths;
use crate::word::{halves, Word};
use std::ops::Range;

/// The BLAKE3 digest of at most 2^24 bytes.
///
/// ```
/// assert_eq!(dequmlo::digest(b"abc").unwrap()[..4], [0x64, 0x37, 0xb3, 0xac]);
/// assert_eq!(dequmlo::digest(&vec![0; (1 << 24) + 1]).unwrap_err().number, 13);
/// ```
pub fn digest(input: &[u8]) -> Result<[u8; 32], Refusal> {
    let answer = unsafe { raw::dequmlo_digest(input.as_ptr(), input.len()) };
    Refusal::unless_done(answer.number)?;
    Ok(answer.bytes)
}

/// The width of the groups of a level of this many values: in the present set 8 from 16 on, in the wide set 32 from 64 on; then 2 from 2 on, else 1.
///
/// ```
/// use dequmlo::{tree::fold_tree_width, Widths};
/// let widths = |set: Widths| [1, 2, 8, 16, 32, 64, 1 << 24].map(|length| fold_tree_width(set, length));
/// assert_eq!(widths(Widths::Present), [1, 2, 2, 8, 8, 8, 8]);
/// assert_eq!(widths(Widths::Wide), [1, 2, 2, 2, 2, 32, 32]);
/// ```
#[must_use]
pub fn fold_tree_width(widths: Widths, length: usize) -> usize {
    unsafe { raw::dequmlo_fold_tree_width(widths.number(), length) }
}

/// The domain of a level's tree, made from the base domain. Refused with 4 for a level above 20, with 7 for a base domain of more than 200
/// bytes.
pub fn level_domain(base: &[u8], level: usize) -> Result<Vec<u8>, Refusal> {
    let answer = unsafe { raw::dequmlo_level_domain_length(base.as_ptr(), base.len(), level) };
    Refusal::unless_done(answer.number)?;
    let mut domain = vec![0; answer.length];
    Refusal::unless_done(unsafe {
        raw::dequmlo_level_domain(
            base.as_ptr(),
            base.len(),
            level,
            domain.as_mut_ptr(),
            domain.len(),
        )
    })?;
    Ok(domain)
}

/// A tree over groups of words: leaves first, then each level of parents, the root last. It keeps no key: a path is taken off it without one.
///
/// ```
/// use dequmlo::{tree, tree::Tree, Word};
/// let values: Vec<Word> = (0..8u128).map(Word).collect();
/// let tree = Tree::build(None, b"d", 2, &values)?;
/// let path = tree.open(5)?;
/// assert_eq!(path.len(), 2);
/// assert_eq!(tree::root_of_path(None, b"d", 8, 2, 5, &values[4..6], &path)?, tree.root());
/// assert_eq!(tree.open(8).unwrap_err().number, 11);
/// # Ok::<(), dequmlo::Refusal>(())
/// ```
#[derive(Clone, Debug, PartialEq, Eq)]
pub struct Tree {
    count: usize,
    width: usize,
    digests: Vec<u8>,
}

impl Tree {
    /// The tree over the values in groups of this width, under a key or none and a domain of at most 255 bytes.
    pub fn build(
        key: Option<&Key>,
        domain: &[u8],
        width: usize,
        values: &[Word],
    ) -> Result<Tree, Refusal> {
        let count = values.len();
        let values = halves(values);
        let mut digests = vec![0; bytes(count, width)];
        Refusal::unless_done(unsafe {
            raw::dequmlo_tree(
                key::raw(key),
                domain.as_ptr(),
                domain.len(),
                count,
                width,
                values.as_ptr(),
                values.len(),
                digests.as_mut_ptr(),
                digests.len(),
            )
        })?;
        Ok(Tree {
            count,
            width,
            digests,
        })
    }

    /// The tree of a level of a deposit over the level's words, for a protocol that draws each challenge after the root before it; all others
    /// have every level's tree from [`crate::Deposit::fold`]. Refused with 4 where there is no such n, k or level, with 5 where the level
    /// has another number of words, with 7 where the base domain has more than 200 bytes.
    pub fn of_level(
        key: Option<&Key>,
        base: &[u8],
        widths: Widths,
        n: usize,
        k: usize,
        level: usize,
        words: &[Word],
    ) -> Result<Tree, Refusal> {
        let values = halves(words);
        let (_, bytes) = Sizes::of(widths, n, k)?.of_level(level)?;
        let mut digests = vec![0; bytes];
        Refusal::unless_done(unsafe {
            raw::dequmlo_level_tree(
                key::raw(key),
                widths.number(),
                n,
                k,
                level,
                base.as_ptr(),
                base.len(),
                values.as_ptr(),
                values.len(),
                digests.as_mut_ptr(),
                digests.len(),
            )
        })?;
        Ok(Tree {
            count: words.len(),
            width: fold_tree_width(widths, words.len()),
            digests,
        })
    }

    /// The last digest.
    #[must_use]
    pub fn root(&self) -> Root {
        root_of(&self.digests)
    }

    /// All digests, 32 bytes each, leaves first.
    #[must_use]
    pub fn digests(&self) -> &[u8] {
        &self.digests
    }

    /// The path of the group that holds a place.
    pub fn open(&self, place: usize) -> Result<Vec<[u8; 32]>, Refusal> {
        let mut path = vec![0u8; 32 * (self.count / self.width).trailing_zeros() as usize];
        let number = unsafe {
            raw::dequmlo_open(
                self.count,
                self.width,
                place,
                self.digests.as_ptr(),
                self.digests.len(),
                path.as_mut_ptr(),
                path.len(),
            )
        };
        Refusal::unless_done(number)?;
        Ok(path
            .chunks_exact(32)
            .map(|d| d.try_into().expect("chunks of 32"))
            .collect())
    }
}

/// The root that the group of a place and a path lead to, under a key or none.
pub fn root_of_path(
    key: Option<&Key>,
    domain: &[u8],
    count: usize,
    width: usize,
    place: usize,
    group: &[Word],
    path: &[[u8; 32]],
) -> Result<Root, Refusal> {
    let values = halves(group);
    let path = path.concat();
    let answer = unsafe {
        raw::dequmlo_root_of_path(
            key::raw(key),
            domain.as_ptr(),
            domain.len(),
            count,
            width,
            place,
            values.as_ptr(),
            values.len(),
            path.as_ptr(),
            path.len(),
        )
    };
    Refusal::unless_done(answer.number)?;
    Ok(Root(answer.bytes))
}

/// The leaves of some groups of a tree over these values, 32 bytes each: a part of [`Tree::digests`]. Refused as a tree is, and with 11 where they are not
/// all the tree's.
///
/// ```
/// use dequmlo::{tree, tree::Tree, Word};
/// let values: Vec<Word> = (0..8u128).map(Word).collect();
/// let digests = Tree::build(None, b"d", 2, &values)?.digests().to_vec();
/// assert_eq!(tree::leaves(None, b"d", 2, &values, 1..3)?, digests[32..96]);
/// assert_eq!(tree::parents(None, b"d", 0, &digests[64..128])?, digests[160..192]);
/// assert_eq!(tree::leaves(None, b"d", 2, &values, 3..5).unwrap_err().number, 11);
/// # Ok::<(), dequmlo::Refusal>(())
/// ```
pub fn leaves(
    key: Option<&Key>,
    domain: &[u8],
    width: usize,
    values: &[Word],
    groups: Range<usize>,
) -> Result<Vec<u8>, Refusal> {
    let count = values.len();
    let values = halves(values);
    let mut out = vec![0u8; 32 * groups.len()];
    Refusal::unless_done(unsafe {
        raw::dequmlo_tree_leaves(
            key::raw(key),
            domain.as_ptr(),
            domain.len(),
            count,
            width,
            groups.start,
            values.as_ptr(),
            values.len(),
            out.as_mut_ptr(),
            out.len(),
        )
    })?;
    Ok(out)
}

/// The parents of digests of a level of a tree, two by two, 32 bytes each; the parents of the leaves are level 0. Refused with 5 where there is no even number
/// of digests, with 7 where the domain has more than 255 bytes.
pub fn parents(
    key: Option<&Key>,
    domain: &[u8],
    level: usize,
    children: &[u8],
) -> Result<Vec<u8>, Refusal> {
    let mut out = vec![0u8; children.len() / 2];
    Refusal::unless_done(unsafe {
        raw::dequmlo_tree_parents(
            key::raw(key),
            domain.as_ptr(),
            domain.len(),
            level,
            children.as_ptr(),
            children.len(),
            out.as_mut_ptr(),
            out.len(),
        )
    })?;
    Ok(out)
}

/// The last digest of a tree.
pub(crate) fn root_of(tree: &[u8]) -> Root {
    Root(tree[tree.len() - 32..].try_into().expect("32 bytes"))
}

/// The bytes of a tree of this shape; 0 where there is no such tree, which the archive then refuses.
fn bytes(count: usize, width: usize) -> usize {
    if width == 0 || count < width {
        return 0;
    }
    32 * (2 * (count / width) - 1)
}
