//! A connection as the thread that owns the server sees it.

use std::net::{SocketAddr, TcpStream};
use std::sync::mpsc::Sender;
use std::sync::Arc;
use std::time::Instant;

use crate::event::{Event, Id};
use crate::os;
use crate::reader::Incoming;
use crate::session::SessionId;
use crate::writer::{Outgoing, LINGER};

#[derive(Clone, Copy, Debug, PartialEq, Eq)]
pub enum Lane {
    Synchronous,
    Asynchronous,
}

pub struct Connection {
    pub id: Id,
    pub peer: SocketAddr,
    stream: TcpStream,
    incoming: Arc<Incoming>,
    outgoing: Arc<Outgoing>,
    /// Received and not yet taken; shown again after each event.
    pub unread: Vec<u8>,
    /// Its session and its lane there, once it has them.
    pub role: Option<(SessionId, Lane)>,
    /// Its first unread message was already reported as held.
    pub held: bool,
    /// When its session must have both channels.
    pub initialized_by: Instant,
    /// When the program closed its side, if it did.
    pub ended: Option<Instant>,
}

impl Connection {
    /// Starts the two threads of a socket.
    pub fn start(
        id: Id,
        stream: TcpStream,
        peer: SocketAddr,
        initialized_by: Instant,
        events: &Sender<Event>,
    ) -> std::io::Result<Connection> {
        stream.set_nodelay(true)?;
        stream.set_write_timeout(Some(LINGER))?;
        os::keep_alive(&stream)?;
        let (incoming, outgoing) = (Arc::new(Incoming::default()), Arc::new(Outgoing::default()));
        let (socket, reads, out) = (stream.try_clone()?, Arc::clone(&incoming), events.clone());
        let thread = std::thread::Builder::new().name(format!("read {id}"));
        thread.spawn(move || reads.read_all(id, socket, &out))?;
        let (socket, reads, out) = (stream.try_clone()?, Arc::clone(&incoming), events.clone());
        let writes = Arc::clone(&outgoing);
        let thread = std::thread::Builder::new().name(format!("write {id}"));
        thread.spawn(move || writes.write_all(id, socket, &reads, &out))?;
        Ok(Connection {
            id,
            peer,
            stream,
            incoming,
            outgoing,
            unread: Vec::new(),
            role: None,
            held: false,
            initialized_by,
            ended: None,
        })
    }

    pub fn session(&self) -> Option<SessionId> {
        self.role.map(|(session, _)| session)
    }

    pub fn send(&self, message: &[u8]) {
        self.outgoing.push(&self.stream, message);
    }

    /// Whether its unsent bytes leave room for more; if not, an event will say when.
    pub fn has_room(&self) -> bool {
        self.outgoing.has_room()
    }

    /// The first so many unread bytes.
    pub fn take(&mut self, count: usize) -> Vec<u8> {
        self.incoming.taken(count);
        self.unread.drain(..count).collect()
    }

    pub fn hung_up(&self) -> bool {
        os::hung_up(&self.stream)
    }
}

/// Whatever ends it, the socket is closed in order.
impl Drop for Connection {
    fn drop(&mut self) {
        self.incoming.drop_the_rest();
        self.outgoing.close();
    }
}
