//! The ring layer of the archive.

use super::{coefficients, coordinates, lowered, raised, word, Answer};
use super::{Coefficients, Pair, Point7};
use crate::ring::Ring;
use oracle::Word;

extern "C" {
    fn dequmlo_test_partial_evals(
        n: usize,
        packed: *const u64,
        packed_length: usize,
        eq: *const u64,
        eq_length: usize,
        out: *mut u64,
        out_length: usize,
    ) -> u32;
    fn dequmlo_test_fold_partials(s: *const u64, s_length: usize, rb: Coefficients) -> Answer;
    fn dequmlo_test_materialize(
        n: usize,
        z: *const u64,
        z_length: usize,
        rb: Coefficients,
        out: *mut u64,
        out_length: usize,
    ) -> u32;
    fn dequmlo_test_eval_at(
        n: usize,
        z: *const u64,
        z_length: usize,
        rb: Coefficients,
        point: *const u64,
        point_length: usize,
    ) -> Answer;
    fn dequmlo_test_extension_sides(
        n: usize,
        packed: *const u64,
        packed_length: usize,
        point: *const u64,
        point_length: usize,
        row: Point7,
        table: *mut u64,
        table_length: usize,
    ) -> Sides;
    fn dequmlo_test_fold_sides(
        n: usize,
        packed: *const u64,
        packed_length: usize,
        point: *const u64,
        point_length: usize,
        rb: Coefficients,
        table: *mut u64,
        table_length: usize,
    ) -> Sides;
}

/// A number, and both sides of an identity.
#[repr(C)]
struct Sides {
    number: u32,
    left: Pair,
    right: Pair,
}

impl Sides {
    /// With the table that the call left.
    fn with(self, table: &[u64]) -> (u64, Vec<Word>, [Word; 2]) {
        let sides = [word(self.left), word(self.right)];
        (u64::from(self.number), raised(table), sides)
    }
}

pub const RING: Ring = Ring {
    partial_evals,
    fold_partials,
    materialize,
    eval_at,
    extension_sides,
    fold_sides,
};

fn partial_evals(n: usize, eq: &[Word], packed: &[Word]) -> (u64, Vec<Word>) {
    let (eq, packed) = (lowered(eq), lowered(packed));
    let mut out = vec![0; 256];
    // SAFETY: the three slices are whole, and live through the call.
    let number = unsafe {
        dequmlo_test_partial_evals(
            n,
            packed.as_ptr(),
            packed.len(),
            eq.as_ptr(),
            eq.len(),
            out.as_mut_ptr(),
            out.len(),
        )
    };
    (u64::from(number), raised(&out))
}

fn fold_partials(s: &[Word; 128], rb: &[Word; 128]) -> (u64, Word) {
    let s = lowered(s);
    // SAFETY: the slice is whole, and lives through the call.
    let answer = unsafe { dequmlo_test_fold_partials(s.as_ptr(), s.len(), coefficients(rb)) };
    (u64::from(answer.number), word(answer.word))
}

fn materialize(z: &[Word], rb: &[Word; 128]) -> (u64, Vec<Word>) {
    let lent = lowered(z);
    let mut out = vec![0; 2 << z.len()];
    // SAFETY: both slices are whole, and live through the call.
    let number = unsafe {
        dequmlo_test_materialize(
            z.len(),
            lent.as_ptr(),
            lent.len(),
            coefficients(rb),
            out.as_mut_ptr(),
            out.len(),
        )
    };
    (u64::from(number), raised(&out))
}

fn eval_at(z: &[Word], rb: &[Word; 128], point: &[Word]) -> (u64, Word) {
    let (n, z, point) = (z.len(), lowered(z), lowered(point));
    // SAFETY: both slices are whole, and live through the call.
    let answer = unsafe {
        dequmlo_test_eval_at(
            n,
            z.as_ptr(),
            z.len(),
            coefficients(rb),
            point.as_ptr(),
            point.len(),
        )
    };
    (u64::from(answer.number), word(answer.word))
}

fn extension_sides(
    packed: &[Word],
    point: &[Word],
    row: &[Word; 7],
) -> (u64, Vec<Word>, [Word; 2]) {
    let (n, packed, point) = (point.len(), lowered(packed), lowered(point));
    let mut table = vec![0; 2 << n];
    // SAFETY: the three slices are whole, and live through the call.
    let sides = unsafe {
        dequmlo_test_extension_sides(
            n,
            packed.as_ptr(),
            packed.len(),
            point.as_ptr(),
            point.len(),
            coordinates(row),
            table.as_mut_ptr(),
            table.len(),
        )
    };
    sides.with(&table)
}

fn fold_sides(packed: &[Word], point: &[Word], rb: &[Word; 128]) -> (u64, Vec<Word>, [Word; 2]) {
    let (n, packed, point) = (point.len(), lowered(packed), lowered(point));
    let mut table = vec![0; 2 << n];
    // SAFETY: the three slices are whole, and live through the call.
    let sides = unsafe {
        dequmlo_test_fold_sides(
            n,
            packed.as_ptr(),
            packed.len(),
            point.as_ptr(),
            point.len(),
            coefficients(rb),
            table.as_mut_ptr(),
            table.len(),
        )
    };
    sides.with(&table)
}
