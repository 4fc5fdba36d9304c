//! The commands, one to a module.

pub mod ask;
pub mod check;
pub mod commit;
pub mod commit_folder;
pub mod compare;
pub mod demo;
pub mod explain;
pub mod key;
pub mod open;
pub mod show;
pub mod tail;
pub mod verify;
pub mod verify_folder;
