//! What the thread that owns the server waits for.

use std::net::{SocketAddr, TcpStream};

use crate::instrument::Done;

/// A connection's own number, never used twice; the server's numbers 0 to 63 are.
pub type Id = u64;

pub enum Event {
    Newcomer {
        stream: TcpStream,
        peer: SocketAddr,
    },
    Bytes {
        connection: Id,
        bytes: Vec<u8>,
    },
    /// The program has closed its side: everything it sent has come.
    Ended {
        connection: Id,
    },
    /// A failure to read or to write.
    Failed {
        connection: Id,
        why: String,
    },
    /// The writing thread has caught up.
    Written {
        connection: Id,
    },
    /// The instrument is through with a request.
    Instrument(Done),
    Stop(&'static str),
}
