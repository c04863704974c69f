//! What became of a delivery.

use std::fmt;

use crate::frame::Frames;
use crate::numbers::SessionId;

/// What became of a delivery.
#[derive(Clone, Copy, Debug, PartialEq, Eq, Hash)]
pub enum Outcome {
    /// Too few bytes: show them again with more. Nothing was taken, nothing changed.
    MoreNeeded,
    /// Payload of a too large message went by.
    Skipped,
    /// Data, DataEND or Trigger without access: keep it, show it again after any event. Nothing was
    /// taken, nothing changed.
    Held,
    /// Taken without effect.
    Ignored,
    /// Taken; an Error is in the output.
    ErrorSent,
    /// The session, or the connection without one, is closed: send the output, close its sockets,
    /// drop its unread bytes.
    Closed {
        /// None: the connection had no session.
        session: Option<SessionId>,
    },
    /// Taken; Data, DataEND and Trigger are for the instrument now.
    ActedOn {
        /// Whose message it was.
        session: SessionId,
    },
}

impl Outcome {
    /// From the numbers of the C interface. Panics at a number that does not exist, as `Server`
    /// documents.
    pub(crate) fn of(number: u64, session: u64) -> Outcome {
        let session = u16::try_from(session).expect("SessionIDs have 16 bits");
        match number {
            0 => Outcome::MoreNeeded,
            1 => Outcome::Skipped,
            2 => Outcome::Held,
            3 => Outcome::Ignored,
            4 => Outcome::ErrorSent,
            5 => Outcome::Closed {
                session: (session != 0).then_some(session.into()),
            },
            6 => Outcome::ActedOn {
                session: session.into(),
            },
            _ => panic!("the library gave outcome {number}, which does not exist"),
        }
    }

    /// The outcome without its session, as `hislip_names.h` has it.
    pub fn name(self) -> &'static str {
        match self {
            Outcome::MoreNeeded => "more needed",
            Outcome::Skipped => "skipped",
            Outcome::Held => "held",
            Outcome::Ignored => "ignored",
            Outcome::ErrorSent => "Error sent",
            Outcome::Closed { .. } => "closed",
            Outcome::ActedOn { .. } => "acted on",
        }
    }
}

impl fmt::Display for Outcome {
    fn fmt(&self, f: &mut fmt::Formatter<'_>) -> fmt::Result {
        match self {
            Outcome::Closed {
                session: Some(number),
            } => write!(f, "session {number} closed"),
            Outcome::ActedOn { session } => write!(f, "acted on for session {session}"),
            other => f.write_str(other.name()),
        }
    }
}

/// An instrument's answer that was not refused.
#[derive(Clone, Debug)]
#[must_use = "what is in it is to be sent"]
pub enum Answered<'a> {
    /// It is in the frames.
    Sent(Frames<'a>),
    /// It was not sent, since the session's next message has come: nothing is asked any more, and the
    /// frames tell the client so (AsyncInterrupted, Interrupted).
    Withheld(Frames<'a>),
}

impl<'a> Answered<'a> {
    /// What to send, in this order.
    pub fn frames(self) -> Frames<'a> {
        match self {
            Answered::Sent(frames) | Answered::Withheld(frames) => frames,
        }
    }

    /// True if the answer was not sent.
    pub fn is_withheld(&self) -> bool {
        matches!(self, Answered::Withheld(_))
    }
}

/// One accepted delivery: what became of it, how many bytes it took, and what to send.
#[derive(Clone, Debug)]
#[must_use = "its bytes are to be dropped from the unread ones, and its frames to be sent"]
pub struct Delivery<'a> {
    /// What became of it.
    pub outcome: Outcome,
    /// So many bytes the host drops from the front of the unread ones.
    pub taken: usize,
    /// With [`Outcome::MoreNeeded`], how many bytes are missing: 16 less what is here, the rest of the
    /// payload, or, with no bytes given, the remainder to skip if there is one. Else 0.
    pub missing: u64,
    /// What to send, in this order.
    pub frames: Frames<'a>,
}
