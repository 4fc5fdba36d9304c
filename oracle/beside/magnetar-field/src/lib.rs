//! The crate root that the published field files lack: their modules, and the
//! names that the other published files import from the root.

pub mod avx;
pub mod eq;
pub mod gf128;
pub mod pack;

pub use eq::EqBits;
pub use gf128::{mul, Gf128, ONE, ZERO};
pub use pack::{eq_coefficients, PhiTab};
