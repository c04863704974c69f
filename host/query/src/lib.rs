//! A HiSLIP client by IVI-6.1's client rules in both modes, and the names of the protocol's
//! numbers. It needs neither the server library nor anything else outside std.

mod arguments;
mod channel;
mod client;
pub mod message;
pub mod names;
pub mod steps;
mod trouble;
pub mod words;

pub use arguments::arguments;
pub use client::{Client, Settings, BEFORE_FIRST, FIRST};
pub use message::Message;
pub use trouble::Trouble;
