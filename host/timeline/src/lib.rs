//! A list of events with their answers, or a gateway's log, as a picture with one lane a session.
//!
//! Who holds a lock and who waits in a list is the lock model's word (`reference::lock_model`), worked out
//! from the calls and their answers alone; so any server's list can be drawn, and nothing has to be asked.
//! A log says it itself.

#![deny(missing_docs)]

mod lanes;
pub mod list;
pub mod log;
mod picture;
mod words;

pub use picture::{draw, draw_log};
