//! Events as values, for a host that keeps them or gets them from elsewhere.

use crate::frame::Frames;
use crate::numbers::{Connection, SessionId};
use crate::outcome::{Answered, Delivery};
use crate::readings::Watch;
use crate::refusal::Refusal;
use crate::server::Server;

/// What the host tells the server.
#[derive(Clone, Copy, Debug, PartialEq)]
pub enum Event<'a> {
    /// A connection opens.
    Open {
        /// Its number.
        connection: Connection,
    },
    /// Unread bytes of a connection, all of them.
    Deliver {
        /// Its number.
        connection: Connection,
        /// From the first one not yet taken.
        bytes: &'a [u8],
    },
    /// A connection is cut.
    Cut {
        /// Its number.
        connection: Connection,
    },
    /// The clock reads so many milliseconds.
    Clock {
        /// Counted from any start.
        milliseconds: u64,
    },
    /// The instrument answers a session.
    Answer {
        /// Its number.
        session: SessionId,
        /// What the instrument says.
        payload: &'a [u8],
        /// With END: the answer is complete.
        end: bool,
        /// All unread bytes of the session's synchronous channel.
        shown: &'a [u8],
    },
    /// The instrument's status byte changes.
    Status {
        /// The new one.
        status: u8,
    },
    /// The watch over a session's readings is set.
    Watch {
        /// Its number.
        session: SessionId,
        /// The new one.
        watch: Watch,
    },
    /// The list of allowed commands is set.
    Patterns {
        /// The new one.
        list: &'a [&'a [u8]],
    },
}

/// The answer to an [`Event`] that was not refused.
#[derive(Clone, Debug)]
#[must_use = "what is in it is to be sent"]
pub enum Answer<'a> {
    /// An opening, a status change, a watch or a list of patterns: nothing to send.
    Done,
    /// A cut or a clock reading.
    Frames(Frames<'a>),
    /// An instrument's answer.
    Answered(Answered<'a>),
    /// A delivery.
    Delivery(Delivery<'a>),
}

impl Server {
    /// Any event. A refusal is that of the event's own method; where a pattern is bad, only
    /// [`Server::patterns`] tells.
    ///
    /// # Panics
    ///
    /// As [`Server`] says: never, with the proved archive.
    pub fn apply(&mut self, event: Event) -> Result<Answer<'_>, Refusal> {
        match event {
            Event::Open { connection } => self.open(connection).map(|()| Answer::Done),
            Event::Deliver { connection, bytes } => {
                self.deliver(connection, bytes).map(Answer::Delivery)
            }
            Event::Cut { connection } => self.cut(connection).map(Answer::Frames),
            Event::Clock { milliseconds } => self.clock(milliseconds).map(Answer::Frames),
            Event::Answer {
                session,
                payload,
                end,
                shown,
            } => {
                let answered = self.answer(session, payload, end, shown);
                answered.map(Answer::Answered)
            }
            Event::Status { status } => {
                self.status(status);
                Ok(Answer::Done)
            }
            Event::Watch { session, watch } => self.watch(session, watch).map(|()| Answer::Done),
            Event::Patterns { list } => {
                let set = self.patterns(list).map_err(Refusal::from);
                set.map(|()| Answer::Done)
            }
        }
    }
}
