//! The hash and the trees of the archive.

use super::{cut, lowered};
use crate::tree::Tree;
use oracle::{Digest, Word};

/// A number, and a digest that is 0 where the number is not.
#[repr(C)]
struct Digested {
    number: u32,
    bytes: Digest,
}

extern "C" {
    fn dequmlo_test_digest(input: *const u8, input_length: usize) -> Digested;
    fn dequmlo_test_serialize_parts(
        bytes: *const u8,
        bytes_length: usize,
        lengths: *const u64,
        lengths_length: usize,
        out: *mut u8,
        out_length: usize,
    ) -> u32;
    fn dequmlo_test_leaf_digest(
        domain: *const u8,
        domain_length: usize,
        count: usize,
        width: usize,
        place: usize,
        values: *const u64,
        values_length: usize,
    ) -> Digested;
    fn dequmlo_test_node_digest(
        domain: *const u8,
        domain_length: usize,
        level: usize,
        left: *const u8,
        left_length: usize,
        right: *const u8,
        right_length: usize,
    ) -> Digested;
    fn dequmlo_test_build(
        domain: *const u8,
        domain_length: usize,
        count: usize,
        width: usize,
        values: *const u64,
        values_length: usize,
        tree: *mut u8,
        tree_length: usize,
    ) -> u32;
    fn dequmlo_test_open(
        count: usize,
        width: usize,
        place: usize,
        tree: *const u8,
        tree_length: usize,
        path: *mut u8,
        path_length: usize,
    ) -> u32;
    fn dequmlo_test_root_of_path(
        domain: *const u8,
        domain_length: usize,
        count: usize,
        width: usize,
        place: usize,
        values: *const u64,
        values_length: usize,
        path: *const u8,
        path_length: usize,
    ) -> Digested;
}

pub const TREE: Tree = Tree {
    blake3,
    serialize_parts,
    leaf_digest,
    node_digest,
    build,
    open,
    root_of_path,
};

fn answered(answer: Digested) -> (u64, Digest) {
    (u64::from(answer.number), answer.bytes)
}

fn blake3(bytes: &[u8]) -> (u64, Digest) {
    // SAFETY: the slice is whole, and lives through the call.
    answered(unsafe { dequmlo_test_digest(bytes.as_ptr(), bytes.len()) })
}

fn serialize_parts(parts: &[&[u8]]) -> (u64, Vec<u8>) {
    let lengths: Vec<u64> = parts.iter().map(|part| part.len() as u64).collect();
    let bytes = parts.concat();
    let mut out = vec![0; 8 + 8 * parts.len() + bytes.len()];
    // SAFETY: the three slices are whole, and live through the call.
    let number = unsafe {
        dequmlo_test_serialize_parts(
            bytes.as_ptr(),
            bytes.len(),
            lengths.as_ptr(),
            lengths.len(),
            out.as_mut_ptr(),
            out.len(),
        )
    };
    (u64::from(number), out)
}

fn leaf_digest(
    domain: &str,
    count: usize,
    width: usize,
    place: usize,
    values: &[Word],
) -> (u64, Digest) {
    let values = lowered(values);
    // SAFETY: both slices are whole, and live through the call.
    answered(unsafe {
        dequmlo_test_leaf_digest(
            domain.as_ptr(),
            domain.len(),
            count,
            width,
            place,
            values.as_ptr(),
            values.len(),
        )
    })
}

fn node_digest(domain: &str, level: usize, left: &Digest, right: &Digest) -> (u64, Digest) {
    // SAFETY: the three slices are whole, and live through the call.
    answered(unsafe {
        dequmlo_test_node_digest(
            domain.as_ptr(),
            domain.len(),
            level,
            left.as_ptr(),
            left.len(),
            right.as_ptr(),
            right.len(),
        )
    })
}

fn build(domain: &str, width: usize, values: &[Word]) -> (u64, Vec<Digest>) {
    let count = values.len();
    let values = lowered(values);
    let mut tree = vec![0; 32 * (2 * (count / width) - 1)];
    // SAFETY: the three slices are whole, and live through the call.
    let number = unsafe {
        dequmlo_test_build(
            domain.as_ptr(),
            domain.len(),
            count,
            width,
            values.as_ptr(),
            values.len(),
            tree.as_mut_ptr(),
            tree.len(),
        )
    };
    (u64::from(number), cut(&tree))
}

fn open(count: usize, width: usize, place: usize, tree: &[Digest]) -> (u64, Vec<Digest>) {
    let tree = tree.concat();
    let mut path = vec![0; 32 * (count / width).ilog2() as usize];
    // SAFETY: both slices are whole, and live through the call.
    let number = unsafe {
        dequmlo_test_open(
            count,
            width,
            place,
            tree.as_ptr(),
            tree.len(),
            path.as_mut_ptr(),
            path.len(),
        )
    };
    (u64::from(number), cut(&path))
}

fn root_of_path(
    domain: &str,
    count: usize,
    width: usize,
    place: usize,
    values: &[Word],
    path: &[Digest],
) -> (u64, Digest) {
    let (values, path) = (lowered(values), path.concat());
    // SAFETY: the three slices are whole, and live through the call.
    answered(unsafe {
        dequmlo_test_root_of_path(
            domain.as_ptr(),
            domain.len(),
            count,
            width,
            place,
            values.as_ptr(),
            values.len(),
            path.as_ptr(),
            path.len(),
        )
    })
}
