//! A stand-in for the hash crate, so that a query can be checked at a position
//! of the caller's choice.
//!
//! Everything is the published crate's but two things. `Transcript` hands out
//! preset positions in place of those drawn by SHA-3. `MerkleTree` delegates
//! each call to the published tree and counts the calls of `verify_batched`:
//! a check of one query makes two of them a level, so the count tells at which
//! level the check stopped.

use magnetar_field::{Gf128, ZERO};
use std::cell::Cell;
use std::collections::VecDeque;

pub use magnetar_hash::{blake3_domain, fe_to_bytes, BATCH_LEAF_WIDTH, DIGEST};

/// Hands out preset positions; field challenges are all zero, absorbing does nothing.
pub struct Transcript {
    positions: VecDeque<u64>,
}

impl Transcript {
    /// A transcript that draws these positions, in this order.
    pub fn at(positions: &[u64]) -> Self {
        Transcript {
            positions: positions.iter().copied().collect(),
        }
    }

    pub fn absorb_bytes(&mut self, _label: &str, _data: &[u8]) {}

    pub fn absorb_field(&mut self, _label: &str, _words: &[Gf128]) {}

    pub fn absorb_digest(&mut self, _label: &str, _digest: &[u8; DIGEST]) {}

    pub fn challenge_field(&mut self, _label: &str) -> Gf128 {
        ZERO
    }

    pub fn challenge_field_vec(&mut self, _label: &str, n: usize) -> Vec<Gf128> {
        vec![ZERO; n]
    }

    pub fn challenge_index(&mut self, _label: &str, _bound: u64) -> u64 {
        self.positions
            .pop_front()
            .expect("no preset position is left")
    }
}

thread_local! {
    static VERIFIED: Cell<usize> = const { Cell::new(0) };
}

/// The calls of `verify_batched` on this thread since the last `take_verified`.
pub fn take_verified() -> usize {
    VERIFIED.with(|count| count.replace(0))
}

/// The published tree, its calls of `verify_batched` counted.
pub struct MerkleTree(pub magnetar_hash::MerkleTree);

impl MerkleTree {
    pub fn build_batched(domain: &str, values: &[Gf128], width: usize) -> Self {
        MerkleTree(magnetar_hash::MerkleTree::build_batched(
            domain, values, width,
        ))
    }

    pub fn width(&self) -> usize {
        self.0.width()
    }

    pub fn root(&self) -> [u8; DIGEST] {
        self.0.root()
    }

    pub fn n_leaves(&self) -> usize {
        self.0.n_leaves()
    }

    pub fn open(&self, index: usize) -> ([u8; DIGEST], Vec<[u8; DIGEST]>) {
        self.0.open(index)
    }

    pub fn leaf_digest_of_batched(
        domain: &str,
        n_values: usize,
        width: usize,
        value_index: usize,
        values: &[Gf128],
    ) -> [u8; DIGEST] {
        magnetar_hash::MerkleTree::leaf_digest_of_batched(
            domain,
            n_values,
            width,
            value_index,
            values,
        )
    }

    pub fn verify_batched(
        domain: &str,
        n_values: usize,
        width: usize,
        value_index: usize,
        leaf_digest: [u8; DIGEST],
        path: &[[u8; DIGEST]],
    ) -> Result<[u8; DIGEST], &'static str> {
        VERIFIED.with(|count| count.set(count.get() + 1));
        magnetar_hash::MerkleTree::verify_batched(
            domain,
            n_values,
            width,
            value_index,
            leaf_digest,
            path,
        )
    }
}
