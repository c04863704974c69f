//! 02's ordinary server: the same rules once more, as one would ship them in plain safe Rust when speed
//! counts. The library's speed is compared with it.
//!
//! A connection's role and slot are found in one look by its number. All state is in fixed arrays, and
//! nothing is allocated but the list of allowed commands, when it is set, and a journal's book. A message is read where it lies, a frame is written straight to where it goes,
//! and an answer is built once, so nothing is read back that was just stored in parts. A lock string is
//! copied once, when it is kept, and compared as bytes.
//!
//! It is not the independent second implementation: it takes sizes, numbers and types of answers from
//! `reference`, and `conform ordinary` holds it to that, answer by answer and byte by byte.

#![forbid(unsafe_code)]

mod acts;
mod commands;
mod crc;
mod delivery;
mod frames;
mod holders;
pub mod journal;
mod locks;
mod readings;
mod replies;
mod server;
mod subject;

pub use journal::Journal;
pub use server::Server;
