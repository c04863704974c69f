//! What a page of results says about its origin, the lines of the definitions to believe, and what the
//! programs that print them have in common.
//! Nothing here links the archive.

#![deny(missing_docs)]

pub mod believe;
pub mod date;
pub mod machine;
pub mod program;
pub mod text;
pub mod tree;
