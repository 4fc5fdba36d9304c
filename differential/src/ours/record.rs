//! Records of the archive, built and checked.

use super::{lowered, pair, Pair};
use crate::record::Record;
use oracle::query::{fold_tree_width, Claim};
use oracle::{Digest, Word};

/// A number, and the level for 16 to 26.
#[repr(C)]
struct Checked {
    number: u32,
    level: u32,
}

extern "C" {
    fn dequmlo_test_check_query(
        base: *const u8,
        base_length: usize,
        n: usize,
        k: usize,
        position: usize,
        challenges: *const u64,
        challenges_length: usize,
        roots: *const u8,
        roots_length: usize,
        s: *const u8,
        s_length: usize,
    ) -> Checked;
    fn dequmlo_test_check_tail(
        base: *const u8,
        base_length: usize,
        n: usize,
        k: usize,
        root: *const u8,
        root_length: usize,
        claim: Pair,
        s: *const u8,
        s_length: usize,
    ) -> u32;
    fn dequmlo_test_build_query(
        out: *mut u8,
        out_length: usize,
        levels: *const u64,
        levels_length: usize,
        trees: *const u8,
        trees_length: usize,
        n: usize,
        k: usize,
        position: usize,
    ) -> u32;
    fn dequmlo_test_build_tail(
        out: *mut u8,
        out_length: usize,
        level: *const u64,
        level_length: usize,
        tree: *const u8,
        tree_length: usize,
        n: usize,
        k: usize,
    ) -> u32;
}

pub const RECORD: Record = Record {
    check_query,
    check_tail,
    build_query,
    build_tail,
};

fn check_query(claim: &Claim, position: usize, bytes: &[u8]) -> (u32, usize) {
    let (challenges, roots) = (lowered(claim.challenges), claim.roots.concat());
    // SAFETY: the four slices are whole, and live through the call.
    let answer = unsafe {
        dequmlo_test_check_query(
            claim.domain.as_ptr(),
            claim.domain.len(),
            claim.n,
            claim.k,
            position,
            challenges.as_ptr(),
            challenges.len(),
            roots.as_ptr(),
            roots.len(),
            bytes.as_ptr(),
            bytes.len(),
        )
    };
    (answer.number, answer.level as usize)
}

fn check_tail(n: usize, k: usize, domain: &str, root: Digest, claim: Word, bytes: &[u8]) -> u32 {
    // SAFETY: the three slices are whole, and live through the call.
    unsafe {
        dequmlo_test_check_tail(
            domain.as_ptr(),
            domain.len(),
            n,
            k,
            root.as_ptr(),
            root.len(),
            pair(claim),
            bytes.as_ptr(),
            bytes.len(),
        )
    }
}

/// The bytes of a tail record for k from 0 to 4 (SPECIFICATION 7.6).
const TAIL_SIZES: [usize; 5] = [28, 44, 148, 420, 340];

fn build_tail(n: usize, k: usize, level: &[Word], tree: &[Digest]) -> (u64, Vec<u8>) {
    let (level, tree) = (lowered(level), tree.concat());
    let mut out = vec![0; TAIL_SIZES[k]];
    // SAFETY: the three slices are whole, and live through the call.
    let number = unsafe {
        dequmlo_test_build_tail(
            out.as_mut_ptr(),
            out.len(),
            level.as_ptr(),
            level.len(),
            tree.as_ptr(),
            tree.len(),
            n,
            k,
        )
    };
    (u64::from(number), out)
}

fn build_query(
    n: usize,
    k: usize,
    words: &[Word],
    trees: &[Digest],
    position: usize,
) -> (u64, Vec<u8>) {
    let (levels, trees) = (lowered(words), trees.concat());
    let mut out = vec![0; query_size(n, k)];
    // SAFETY: the three slices are whole, and live through the call.
    let number = unsafe {
        dequmlo_test_build_query(
            out.as_mut_ptr(),
            out.len(),
            levels.as_ptr(),
            levels.len(),
            trees.as_ptr(),
            trees.len(),
            n,
            k,
            position,
        )
    };
    (u64::from(number), out)
}

/// The bytes of a query record: a count; per level three words, four counts, and
/// the group and path of its own level and of the next.
fn query_size(n: usize, k: usize) -> usize {
    let opening = |level: usize| {
        let count = 1 << (n + k - level);
        let width = fold_tree_width(count);
        16 * width + 32 * (count / width).ilog2() as usize
    };
    let level = |level: usize| 48 + 16 + opening(level) + opening(level + 1);
    4 + (0..n).map(level).sum::<usize>()
}
