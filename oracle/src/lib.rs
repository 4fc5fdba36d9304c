//! The published Rust, unchanged, behind one typed function for each reference
//! function that docs/SPECIFICATION.md carries over.
//!
//! Call `machine::start` first: it fixes the vector kind, so that every run on
//! one machine takes the same path, and refuses a machine on which the Rust
//! does not compute what it says. A function here panics where the Rust does;
//! `quietly` turns that into an answer.

pub mod code;
pub mod field;
pub mod hash;
pub mod machine;
pub mod query;
pub mod record;
pub mod ring;
pub mod tree;

/// A word: bit i of the number is the coefficient of x^i.
pub use magnetar_field::Gf128 as Word;

/// A BLAKE3 digest.
pub type Digest = [u8; 32];

/// The answer, or nothing where the Rust panics; the panic prints no message.
pub fn quietly<T>(answer: impl FnOnce() -> T) -> Option<T> {
    use std::panic;
    let usual = panic::take_hook();
    panic::set_hook(Box::new(|_| {}));
    let result = panic::catch_unwind(panic::AssertUnwindSafe(answer));
    panic::set_hook(usual);
    result.ok()
}
