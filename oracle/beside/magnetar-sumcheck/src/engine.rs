//! The stand-in prover and verifier.

use crate::{preset, public::PublicFactor, BindOrder, RoundMsg, SumcheckSpec, Term};
use magnetar_field::{mul, Gf128};

/// Folds the dense tables by the preset challenges; proves nothing.
pub struct SumcheckProver {
    tables: Vec<Vec<Gf128>>,
    claim: Gf128,
    challenges: Vec<Gf128>,
    round: usize,
}

impl SumcheckProver {
    pub fn new(spec: &SumcheckSpec, _order: BindOrder) -> Self {
        SumcheckProver {
            tables: spec.dense.clone(),
            claim: spec.claim,
            challenges: preset::challenges(),
            round: 0,
        }
    }

    /// The message of this round: its challenge.
    pub fn message(&mut self) -> RoundMsg {
        RoundMsg(vec![self.challenges[self.round]])
    }

    pub fn fold_msg(&mut self, _msg: &RoundMsg, r: Gf128) {
        for table in &mut self.tables {
            *table = fold_first(table, r);
        }
        self.round += 1;
    }

    pub fn absorb_and_fold<T>(&mut self, _transcript: &mut T, _label: &str) -> Gf128 {
        let message = self.message();
        let challenge = message.0[0];
        self.fold_msg(&message, challenge);
        challenge
    }

    /// Each table's value at the challenges, and the claim it was given.
    pub fn finish(self) -> (Vec<Gf128>, Gf128) {
        let values = self.tables.iter().map(|table| table[0]).collect();
        (values, self.claim)
    }
}

/// Binds a table's first variable to r.
fn fold_first(table: &[Gf128], r: Gf128) -> Vec<Gf128> {
    let bind = |pair: &[Gf128]| pair[0] + mul(r, pair[0] + pair[1]);
    table.chunks_exact(2).map(bind).collect()
}

/// Takes each challenge from its round message; accepts.
pub struct SumcheckVerifier;

impl SumcheckVerifier {
    pub fn new(
        _num_vars: usize,
        _claim: Gf128,
        _public: &[Box<dyn PublicFactor + Send + Sync>],
        _terms: Vec<Term>,
        _order: BindOrder,
    ) -> Self {
        SumcheckVerifier
    }

    pub fn round_capturing<T>(
        &mut self,
        message: &RoundMsg,
        _transcript: &mut T,
        _label: &str,
    ) -> Result<Gf128, &'static str> {
        message
            .0
            .first()
            .copied()
            .ok_or("stand-in: a round message is a challenge")
    }

    pub fn finish(self, _claims: &[Gf128]) -> Result<(), &'static str> {
        Ok(())
    }
}
