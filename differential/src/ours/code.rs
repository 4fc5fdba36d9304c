//! The code layer of the archive.

use super::{lowered, pair, raised, Pair};
use crate::code::{Code, InUse};
use oracle::Word;

/// A number, and the n of a folded codeword.
#[repr(C)]
struct Folded {
    number: u32,
    n: usize,
}

extern "C" {
    fn dequmlo_test_derive(
        n: usize,
        k: usize,
        domain: *const u8,
        domain_length: usize,
        out: *mut u64,
        out_length: usize,
    ) -> u32;
    fn dequmlo_test_l_of(
        n: usize,
        k: usize,
        original: usize,
        eps: usize,
        coordinates: *const usize,
        coordinates_length: usize,
        gammas: *const u64,
        gammas_length: usize,
        out: *mut u64,
        out_length: usize,
    ) -> u32;
    fn dequmlo_test_encode(
        n: usize,
        k: usize,
        table: *const u64,
        table_length: usize,
        gammas: *const u64,
        gammas_length: usize,
        out: *mut u64,
        out_length: usize,
    ) -> u32;
    fn dequmlo_test_fold(
        n: usize,
        k: usize,
        original: usize,
        var: usize,
        r: Pair,
        coordinates: *mut usize,
        coordinates_length: usize,
        src: *const u64,
        src_length: usize,
        out: *mut u64,
        out_length: usize,
    ) -> Folded;
    fn dequmlo_test_earlier_reading(
        n: usize,
        k: usize,
        original: usize,
        coordinates: *mut usize,
        coordinates_length: usize,
    ) -> u32;
}

pub const CODE: Code = Code {
    derive,
    l_of,
    encode,
    fold,
    earlier_reading,
};

fn derive(n: usize, k: usize, domain: &str) -> (u64, Vec<Word>) {
    let mut out = vec![0; 2 * n * k];
    // SAFETY: both slices are whole, and live through the call.
    let number = unsafe {
        dequmlo_test_derive(
            n,
            k,
            domain.as_ptr(),
            domain.len(),
            out.as_mut_ptr(),
            out.len(),
        )
    };
    (u64::from(number), raised(&out))
}

fn l_of(in_use: &InUse, gammas: &[Word], eps: usize) -> (u64, Vec<Word>) {
    let lent = lowered(gammas);
    let mut out = vec![0; 2 * in_use.n];
    // SAFETY: the three slices are whole, and live through the call.
    let number = unsafe {
        dequmlo_test_l_of(
            in_use.n,
            in_use.k,
            in_use.original,
            eps,
            in_use.coordinates.as_ptr(),
            in_use.coordinates.len(),
            lent.as_ptr(),
            lent.len(),
            out.as_mut_ptr(),
            out.len(),
        )
    };
    (u64::from(number), raised(&out))
}

fn encode(n: usize, k: usize, gammas: &[Word], table: &[Word]) -> (u64, Vec<Word>) {
    let (gammas, table) = (lowered(gammas), lowered(table));
    let mut out = vec![0; 2 << (n + k)];
    // SAFETY: the three slices are whole, and live through the call.
    let number = unsafe {
        dequmlo_test_encode(
            n,
            k,
            table.as_ptr(),
            table.len(),
            gammas.as_ptr(),
            gammas.len(),
            out.as_mut_ptr(),
            out.len(),
        )
    };
    (u64::from(number), raised(&out))
}

/// The list that is left is the first entries of the lent one; what is behind must be 0.
fn fold(in_use: &mut InUse, var: usize, r: Word, values: &[Word]) -> (u64, Vec<Word>) {
    let src = lowered(values);
    let mut out = vec![0; src.len() / 2];
    // SAFETY: the three slices are whole, and live through the call.
    let folded = unsafe {
        dequmlo_test_fold(
            in_use.n,
            in_use.k,
            in_use.original,
            var,
            pair(r),
            in_use.coordinates.as_mut_ptr(),
            in_use.coordinates.len(),
            src.as_ptr(),
            src.len(),
            out.as_mut_ptr(),
            out.len(),
        )
    };
    in_use.n = folded.n;
    if in_use.coordinates.last() == Some(&0) {
        in_use.coordinates.pop();
    }
    (u64::from(folded.number), raised(&out))
}

fn earlier_reading(in_use: &mut InUse) -> u64 {
    // SAFETY: the slice is whole, and lives through the call.
    let number = unsafe {
        dequmlo_test_earlier_reading(
            in_use.n,
            in_use.k,
            in_use.original,
            in_use.coordinates.as_mut_ptr(),
            in_use.coordinates.len(),
        )
    };
    u64::from(number)
}
