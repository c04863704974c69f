//! What the gateway keeps of a session beside the server: parts of a message, requests at the
//! instrument, the answer that is being sent.

pub use hislip::SessionId;

use crate::instrument::Ticket;

/// Longest message made of Data without end.
pub const LONGEST_MESSAGE: usize = 1 << 20;
/// Bytes of a session's commands that the instrument has not yet done, above which further messages
/// wait.
const LONGEST_BACKLOG: usize = 1 << 20;

/// An answer and how much of it is sent.
pub struct Answer {
    pub bytes: Vec<u8>,
    pub sent: usize,
}

pub struct Session {
    /// Data whose end has not come; None if it was too long.
    parts: Option<Vec<u8>>,
    /// A request that may be answered: the synchronous channel waits for it.
    pub question: Option<Ticket>,
    pub answer: Option<Answer>,
    /// Bytes of commands at the instrument.
    pub backlog: usize,
    /// Both channels are there.
    pub whole: bool,
    /// Service was requested, and the program has not asked for the status byte since.
    pub requested: bool,
    /// Requests before this one were cleared, or were another session's of the same number.
    first: Ticket,
}

impl Session {
    pub fn new(first: Ticket) -> Session {
        Session {
            parts: Some(Vec::new()),
            question: None,
            answer: None,
            backlog: 0,
            whole: false,
            requested: false,
            first,
        }
    }

    /// Its next synchronous message must wait.
    pub fn is_busy(&self) -> bool {
        self.question.is_some() || self.answer.is_some() || self.backlog >= LONGEST_BACKLOG
    }

    pub fn add(&mut self, payload: &[u8]) {
        let parts = self.parts.take();
        self.parts = parts.filter(|parts| parts.len() + payload.len() <= LONGEST_MESSAGE);
        if let Some(parts) = &mut self.parts {
            parts.extend_from_slice(payload);
        }
    }

    /// The whole message, now that its end has come; None if it was too long.
    pub fn end(&mut self) -> Option<Vec<u8>> {
        self.parts.replace(Vec::new())
    }

    pub fn knows(&self, ticket: Ticket) -> bool {
        ticket >= self.first
    }

    /// A device clear: nothing is asked, kept or to be sent any more.
    pub fn clear(&mut self, first: Ticket) {
        let (whole, requested) = (self.whole, self.requested);
        *self = Session {
            whole,
            requested,
            ..Session::new(first)
        };
    }
}
