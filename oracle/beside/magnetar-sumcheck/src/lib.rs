//! A stand-in for the sum-check crate, which was not published with the files:
//! the small interface that eval.rs and ring.rs use, and no sum-check.
//!
//! A round message is the round's challenge and nothing else. The prover takes
//! its challenges from `preset`, the verifier takes each from the message it is
//! given and accepts. So the caller chooses the challenges of both.

use magnetar_field::Gf128;

pub mod engine;
pub mod preset;
pub mod public;

/// The order in which variables are bound; the published files use this one alone.
pub enum BindOrder {
    Increasing,
}

/// A round message: here the round's challenge.
pub struct RoundMsg(pub Vec<Gf128>);

/// A product of factors, named by their places in the lists.
pub struct Term {
    pub coeff: Gf128,
    pub dense: Vec<usize>,
    pub public: Vec<usize>,
}

/// What a sum-check is over.
pub struct SumcheckSpec {
    pub num_vars: usize,
    pub dense: Vec<Vec<Gf128>>,
    pub public: Vec<Box<dyn public::PublicFactor + Send + Sync>>,
    pub terms: Vec<Term>,
    pub claim: Gf128,
}
