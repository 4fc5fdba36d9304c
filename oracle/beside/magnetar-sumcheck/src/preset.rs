//! The challenges that the stand-in prover uses, chosen by the caller.

use magnetar_field::Gf128;
use std::cell::RefCell;

thread_local! {
    static CHALLENGES: RefCell<Vec<Gf128>> = const { RefCell::new(Vec::new()) };
}

/// Sets the challenges of the provers made on this thread from now on.
pub fn set_challenges(challenges: &[Gf128]) {
    CHALLENGES.with(|kept| *kept.borrow_mut() = challenges.to_vec());
}

/// The challenges that are set.
pub(crate) fn challenges() -> Vec<Gf128> {
    CHALLENGES.with(|kept| kept.borrow().clone())
}
