//! What a journal says (docs/JOURNAL.md), for people. The bytes, the layout of bodies and the verdict are
//! the reference's (`reference::journal`, `reference::verifier`); nothing here links the archive.

#![forbid(unsafe_code)]

pub mod command;
pub mod file;
mod locks;
pub mod origin;
mod plain;
pub mod print;
pub mod readings;
pub mod repair;
mod step;
pub mod trouble;
mod walk;

pub use trouble::Trouble;
