//! The events and the answer to one, as plain values, so that lists of them can be kept.

use crate::watch::{Single, Watch};

/// What the host tells the server. `room` is the length of the lent output buffer.
#[derive(Clone, Debug, PartialEq, Eq)]
pub enum Event {
    Open {
        connection: u32,
    },
    Deliver {
        connection: u32,
        bytes: Vec<u8>,
        room: usize,
    },
    Cut {
        connection: u32,
        room: usize,
    },
    Clock {
        milliseconds: u64,
        room: usize,
    },
    Answer {
        session: u32,
        payload: Vec<u8>,
        /// 0 is no END, any other value is END.
        end: u8,
        /// The session's unread synchronous bytes.
        shown: Vec<u8>,
        room: usize,
    },
    Status {
        status: u8,
    },
    Watch {
        session: u32,
        watch: Watch,
    },
    Patterns {
        /// Each pattern is ended by a newline; a last one may lack it.
        text: Vec<u8>,
    },
}

impl Event {
    /// Length of the lent output buffer; 0 for events that have none.
    pub fn room(&self) -> usize {
        self.buffer().unwrap_or(0)
    }

    pub fn is_lent_a_buffer(&self) -> bool {
        self.buffer().is_some()
    }

    fn buffer(&self) -> Option<usize> {
        match *self {
            Event::Deliver { room, .. }
            | Event::Cut { room, .. }
            | Event::Clock { room, .. }
            | Event::Answer { room, .. } => Some(room),
            Event::Open { .. }
            | Event::Status { .. }
            | Event::Watch { .. }
            | Event::Patterns { .. } => None,
        }
    }
}

/// The answer in 01's numbers: refusal 0 is none, outcomes count from 0 (more needed) to 6 (acted
/// on), `output` counts the bytes of frames, `missing` those that more needed asks for; `withheld` is 1 if
/// an instrument's answer was not sent, `pattern` and `place` say what is bad in a list with refusal 11.
#[derive(Clone, Copy, Debug, Default, PartialEq, Eq)]
pub struct Reply {
    pub refusal: u64,
    pub outcome: u64,
    pub session: u64,
    pub taken: u64,
    pub output: u64,
    pub missing: u64,
    pub withheld: u64,
    pub pattern: u64,
    pub place: u64,
}

impl Reply {
    pub const MORE_NEEDED: u64 = 0;
    pub const SKIPPED: u64 = 1;
    pub const HELD: u64 = 2;
    pub const IGNORED: u64 = 3;
    pub const ERROR_SENT: u64 = 4;
    pub const CLOSED: u64 = 5;
    pub const ACTED_ON: u64 = 6;

    /// The outcomes in words, by number.
    pub const OUTCOMES: [&str; 7] = [
        "more needed",
        "skipped",
        "held",
        "ignored",
        "Error sent",
        "closed",
        "acted on",
    ];

    pub fn refused(refusal: u64) -> Reply {
        Reply {
            refusal,
            ..Reply::default()
        }
    }

    pub fn done(output: u64) -> Reply {
        Reply {
            output,
            ..Reply::default()
        }
    }
}

/// The answer to the question who waits: how many, and the earliest deadline; 0 and 0 if nobody does.
#[derive(Clone, Copy, Debug, Default, PartialEq, Eq)]
pub struct Deadline {
    pub waiting: u64,
    pub deadline: u64,
}

/// The answer to the question how long an answer to a session may be.
#[derive(Clone, Copy, Debug, Default, PartialEq, Eq)]
pub struct Size {
    pub refusal: u64,
    pub size: u64,
}

/// A row of the front panel: a session that holds a lock. `exclusive` and `shared` are 1 if that lock
/// is held, else 0. It lies as in the C interface, so that a list of rows can be lent as it is.
#[repr(C)]
#[derive(Clone, Copy, Debug, Default, PartialEq, Eq)]
pub struct Row {
    pub session: u64,
    pub exclusive: u64,
    pub shared: u64,
    /// The reading of the clock at its last grant.
    pub granted_at: u64,
    /// Locks granted to it since it opened.
    pub grants: u64,
}

/// The answer to the question who holds what: how many rows were written.
#[derive(Clone, Copy, Debug, Default, PartialEq, Eq)]
pub struct Counted {
    pub refusal: u64,
    pub rows: u64,
}

/// The answer to the question what a session's readings were; `seen` is 0 if there were none, and so are the
/// readings then.
#[derive(Clone, Copy, Debug, Default, PartialEq, Eq)]
pub struct Readings {
    pub refusal: u64,
    pub seen: u64,
    pub last: Single,
    pub lowest: Single,
    pub highest: Single,
}

/// One frame of an output.
#[derive(Clone, Copy, Debug, PartialEq, Eq)]
pub struct Frame<'a> {
    pub connection: u8,
    pub kind: u8,
    pub code: u8,
    pub parameter: u32,
    pub payload: &'a [u8],
}

/// The frames of an output; None if it is not a row of whole frames.
pub fn frames(mut output: &[u8]) -> Option<Vec<Frame<'_>>> {
    let mut found = Vec::new();
    while let [connection, b'H', b'S', kind, code, rest @ ..] = output {
        let (parameter, rest) = rest.split_first_chunk::<4>()?;
        let (length, rest) = rest.split_first_chunk::<8>()?;
        let length = usize::try_from(u64::from_be_bytes(*length)).ok()?;
        found.push(Frame {
            connection: *connection,
            kind: *kind,
            code: *code,
            parameter: u32::from_be_bytes(*parameter),
            payload: rest.get(..length)?,
        });
        output = &rest[length..];
    }
    output.is_empty().then_some(found)
}
