//! Parameters, widths, level domains and committing, of the archive.

use super::{cut, lowered, raised};
use crate::code::InUse;
use crate::eval::Eval;
use oracle::query::{fold_tree_width as width, Commitment, Params};
use oracle::Word;

/// The domain is the first `length` bytes.
#[repr(C)]
struct Parameters {
    k: usize,
    queries: usize,
    domain: [u8; 24],
    length: usize,
}

extern "C" {
    fn dequmlo_test_fold_tree_width(length: usize) -> usize;
    fn dequmlo_test_level_domain(
        out: *mut u8,
        out_length: usize,
        base: *const u8,
        base_length: usize,
        level: usize,
    ) -> usize;
    fn dequmlo_test_parameters(number: usize) -> Parameters;
    fn dequmlo_test_commit(
        n: usize,
        k: usize,
        base: *const u8,
        base_length: usize,
        table: *const u64,
        table_length: usize,
        gammas: *mut u64,
        gammas_length: usize,
        codeword: *mut u64,
        codeword_length: usize,
        coordinates: *mut usize,
        coordinates_length: usize,
        tree: *mut u8,
        tree_length: usize,
    ) -> u32;
}

pub const EVAL: Eval = Eval {
    // SAFETY: it takes a number and answers one.
    fold_tree_width: |length| unsafe { dequmlo_test_fold_tree_width(length) },
    level_domain,
    parameters,
    commit,
    code: super::code::CODE,
};

fn level_domain(base: &str, level: usize) -> Vec<u8> {
    let mut out = vec![0; 256];
    // SAFETY: both slices are whole, and live through the call.
    let length = unsafe {
        dequmlo_test_level_domain(
            out.as_mut_ptr(),
            out.len(),
            base.as_ptr(),
            base.len(),
            level,
        )
    };
    out.truncate(length);
    out
}

fn parameters(number: usize) -> Params {
    // SAFETY: it takes a number and answers a struct of the same layout.
    let made = unsafe { dequmlo_test_parameters(number) };
    Params {
        k: made.k,
        queries: made.queries,
        domain: String::from_utf8_lossy(&made.domain[..made.length]).into(),
    }
}

fn commit(n: usize, k: usize, base: &str, table: &[Word]) -> (u64, Commitment, InUse) {
    let count = 1 << (n + k);
    let table = lowered(table);
    let (mut gammas, mut codeword) = (vec![0; 2 * n * k], vec![0; 2 * count]);
    let mut tree = vec![0; 32 * (2 * (count / width(count)) - 1)];
    let mut in_use = InUse::committed(n, k);
    in_use.coordinates.fill(usize::MAX);
    // SAFETY: the six slices are whole, and live through the call.
    let number = unsafe {
        dequmlo_test_commit(
            n,
            k,
            base.as_ptr(),
            base.len(),
            table.as_ptr(),
            table.len(),
            gammas.as_mut_ptr(),
            gammas.len(),
            codeword.as_mut_ptr(),
            codeword.len(),
            in_use.coordinates.as_mut_ptr(),
            in_use.coordinates.len(),
            tree.as_mut_ptr(),
            tree.len(),
        )
    };
    let made = Commitment {
        gammas: raised(&gammas),
        codeword: raised(&codeword),
        digests: cut(&tree),
    };
    (u64::from(number), made, in_use)
}
