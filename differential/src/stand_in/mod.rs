//! Stand-ins for our functions, to test the harness: for each layer one set that
//! is right, written from docs/SPECIFICATION.md alone, and wrong ones, each wrong in one
//! function and as little as a likely slip would be.

pub mod code;
pub mod eval;
pub mod field;
pub mod record;
pub mod ring;
pub mod tree;

/// The function that is wrong, what is wrong with it, and the wrong set.
pub type Wrong<F> = (&'static str, &'static str, F);
