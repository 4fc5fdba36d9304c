//! A second build of the same copies of the published commitment files, against
//! the hash crate with preset positions.

#[path = "../../magnetar-pcs/src/code.rs"]
pub mod code;
#[path = "../../magnetar-pcs/src/eval.rs"]
pub mod eval;
#[path = "../../magnetar-pcs/src/ring.rs"]
pub mod ring;
