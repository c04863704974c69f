//! The numbers that a host meets: connections, which it gives out itself, and sessions.

use std::fmt;

use crate::sizes::CONNECTIONS;

/// A connection's number. The host gives it to a socket when it opens; one above 63 can be said, and
/// every call that takes it refuses it.
///
/// ```
/// use hislip::Connection;
///
/// let sockets: Vec<usize> = Connection::all().map(usize::from).collect();
/// assert_eq!(sockets.len(), hislip::CONNECTIONS);
/// assert_eq!(Connection::from(7), Connection::new(7));
/// ```
#[derive(Clone, Copy, Debug, PartialEq, Eq, PartialOrd, Ord, Hash)]
pub struct Connection(u32);

impl Connection {
    /// The connection of this number.
    pub const fn new(number: u32) -> Connection {
        Connection(number)
    }

    /// The number in the C interface.
    pub const fn number(self) -> u32 {
        self.0
    }

    /// The numbers that are not refused, 0 to 63.
    pub fn all() -> impl Iterator<Item = Connection> {
        (0..CONNECTIONS as u32).map(Connection)
    }
}

impl From<u32> for Connection {
    fn from(number: u32) -> Connection {
        Connection(number)
    }
}

impl From<Connection> for u32 {
    fn from(connection: Connection) -> u32 {
        connection.0
    }
}

/// For a place in a list of [`CONNECTIONS`] sockets.
impl From<Connection> for usize {
    fn from(connection: Connection) -> usize {
        connection.0 as usize
    }
}

impl fmt::Display for Connection {
    fn fmt(&self, f: &mut fmt::Formatter<'_>) -> fmt::Result {
        self.0.fmt(f)
    }
}

/// A session's number as the client knows it (SessionID), 1 to 65,535. The server gives it; 0 can be
/// said, and every call that takes it refuses it.
///
/// ```
/// use hislip::SessionId;
///
/// let session = SessionId::new(7);
/// assert_eq!((session.number(), session), (7, 7.into()));
/// assert_eq!(u32::from(session), 7, "as in AsyncInitialize");
/// assert_eq!(format!("session {session:3}"), "session   7");
/// ```
#[derive(Clone, Copy, Debug, PartialEq, Eq, PartialOrd, Ord, Hash)]
#[must_use = "it says whose message it was, and whom to answer"]
pub struct SessionId(u16);

impl SessionId {
    /// The session of this number.
    pub const fn new(number: u16) -> SessionId {
        SessionId(number)
    }

    /// The number on the wire.
    pub const fn number(self) -> u16 {
        self.0
    }
}

impl From<u16> for SessionId {
    fn from(number: u16) -> SessionId {
        SessionId(number)
    }
}

impl From<SessionId> for u16 {
    fn from(session: SessionId) -> u16 {
        session.0
    }
}

/// For a message's parameter, and for the C interface.
impl From<SessionId> for u32 {
    fn from(session: SessionId) -> u32 {
        session.0.into()
    }
}

impl fmt::Display for SessionId {
    fn fmt(&self, f: &mut fmt::Formatter<'_>) -> fmt::Result {
        self.0.fmt(f)
    }
}
