//! The crate root that the published commitment files lack.

pub mod code;
pub mod eval;
pub mod ring;
