//! A HiSLIP gateway on the proved server library: sockets, clock and instrument are here, the protocol
//! is there. One thread reads each socket, one writes each, one works the instrument, and one owns the
//! server and waits for what the others tell it.

#![deny(missing_docs)]

pub mod allow;
mod answer;
mod arrive;
mod connection;
mod deliver;
mod describe;
mod event;
mod gateway;
pub mod instrument;
mod listen;
mod locks;
mod log;
pub mod options;
mod os;
mod reader;
mod recorder;
mod refuse;
mod session;
pub mod signals;
mod utc;
pub mod watch;
mod writer;

pub use gateway::{Gateway, Settings, Stopper};
pub use log::Log;
