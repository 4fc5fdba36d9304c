//! Public factors: the trait that ring.rs implements, and eval.rs's one factor.

use magnetar_field::{mul, EqBits, Gf128, ONE};

/// A multilinear factor that everyone can evaluate.
pub trait PublicFactor {
    fn num_vars(&self) -> usize;
    fn materialize(&self) -> Vec<Gf128>;
    fn eval_at(&self, point: &[Gf128]) -> Gf128;
}

/// The equality function of a point.
pub struct EqFactor {
    point: Vec<Gf128>,
}

impl EqFactor {
    pub fn new(point: Vec<Gf128>) -> Self {
        EqFactor { point }
    }
}

impl PublicFactor for EqFactor {
    fn num_vars(&self) -> usize {
        self.point.len()
    }

    fn materialize(&self) -> Vec<Gf128> {
        EqBits::build(&self.point).values
    }

    fn eval_at(&self, point: &[Gf128]) -> Gf128 {
        let pairs = self.point.iter().zip(point);
        pairs.fold(ONE, |product, (&a, &b)| mul(product, ONE + a + b))
    }
}
