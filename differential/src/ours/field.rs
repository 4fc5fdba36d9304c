//! The field layer of the archive.

use super::{coefficients, coordinates, lowered, pair, raised, word, Answer};
use super::{Coefficients, Pair, Point7};
use crate::field::Field;
use oracle::Word;

extern "C" {
    fn dequmlo_test_mul(a: Pair, b: Pair) -> Pair;
    fn dequmlo_test_square(a: Pair) -> Pair;
    fn dequmlo_test_square_by_table(a: Pair) -> Pair;
    fn dequmlo_test_inv(a: Pair) -> Answer;
    fn dequmlo_test_pack_table(
        bytes: *const u8,
        bytes_length: usize,
        out: *mut u64,
        out_length: usize,
    ) -> u32;
    fn dequmlo_test_phi_c(p: Pair, c: Coefficients) -> Pair;
    fn dequmlo_test_phi_tab(p: Pair, c: Coefficients) -> Pair;
    fn dequmlo_test_eq_coefficients(r: Point7) -> Coefficients;
    fn dequmlo_test_eq_table(
        n: usize,
        point: *const u64,
        point_length: usize,
        out: *mut u64,
        out_length: usize,
    ) -> u32;
    /// s = r × s.
    fn dequmlo_test_scale(s: *mut u64, s_length: usize, r: Pair);
    /// y += r × x, the two of one length.
    fn dequmlo_test_axpy(y: *mut u64, y_length: usize, x: *const u64, x_length: usize, r: Pair);
}

pub const FIELD: Field = Field {
    mul,
    square,
    square_by_table,
    inv,
    pack_table,
    phi_c,
    phi_tab,
    eq_coefficients,
    eq_table,
    mul_run,
    axpy_run,
};

fn mul(a: Word, b: Word) -> Word {
    // SAFETY: words by value; nothing is lent.
    word(unsafe { dequmlo_test_mul(pair(a), pair(b)) })
}

fn square(a: Word) -> Word {
    // SAFETY: a word by value; nothing is lent.
    word(unsafe { dequmlo_test_square(pair(a)) })
}

fn square_by_table(a: Word) -> Word {
    // SAFETY: a word by value; nothing is lent.
    word(unsafe { dequmlo_test_square_by_table(pair(a)) })
}

fn inv(a: Word) -> (u64, Word) {
    // SAFETY: a word by value; nothing is lent.
    let answer = unsafe { dequmlo_test_inv(pair(a)) };
    (u64::from(answer.number), word(answer.word))
}

fn pack_table(bytes: &[u8]) -> (u64, Vec<Word>) {
    let mut out = vec![0; 2 * (bytes.len() / 128)];
    // SAFETY: both slices are whole, and live through the call.
    let number = unsafe {
        dequmlo_test_pack_table(bytes.as_ptr(), bytes.len(), out.as_mut_ptr(), out.len())
    };
    (u64::from(number), raised(&out))
}

fn phi_c(p: Word, c: &[Word; 128]) -> Word {
    // SAFETY: values only; nothing is lent.
    word(unsafe { dequmlo_test_phi_c(pair(p), coefficients(c)) })
}

fn phi_tab(p: Word, c: &[Word; 128]) -> Word {
    // SAFETY: values only; nothing is lent.
    word(unsafe { dequmlo_test_phi_tab(pair(p), coefficients(c)) })
}

fn eq_coefficients(r: &[Word; 7]) -> [Word; 128] {
    // SAFETY: values only; nothing is lent.
    unsafe { dequmlo_test_eq_coefficients(coordinates(r)) }
        .words
        .map(word)
}

fn eq_table(point: &[Word]) -> (u64, Vec<Word>) {
    let lent = lowered(point);
    let mut out = vec![0; 2 << point.len()];
    // SAFETY: both slices are whole, and live through the call.
    let number = unsafe {
        dequmlo_test_eq_table(
            point.len(),
            lent.as_ptr(),
            lent.len(),
            out.as_mut_ptr(),
            out.len(),
        )
    };
    (u64::from(number), raised(&out))
}

fn mul_run(src: &[Word], r: Word) -> Vec<Word> {
    let mut lent = lowered(src);
    // SAFETY: the slice is whole, and lives through the call.
    unsafe { dequmlo_test_scale(lent.as_mut_ptr(), lent.len(), pair(r)) };
    raised(&lent)
}

fn axpy_run(dst: &[Word], src: &[Word], r: Word) -> Vec<Word> {
    let (mut y, x) = (lowered(dst), lowered(src));
    // SAFETY: both slices are whole, and live through the call.
    unsafe { dequmlo_test_axpy(y.as_mut_ptr(), y.len(), x.as_ptr(), x.len(), pair(r)) };
    raised(&y)
}
