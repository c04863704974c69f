//! The body of an entry: one event, then the frames that it gave, up to the body's end.
//!
//! The layout says shape only. What a server would refuse has one too, as long as it fits a body.

use crate::journal::framing::BODY_LIMIT;

/// 02: with a book kept, a delivery looks at no more than the first 1,040 unread bytes.
pub const MOST_DELIVERED: usize = 1_040;
/// 02: of bytes shown with an answer only the first 16 count.
pub const MOST_SHOWN: usize = 16;

/// An event as a body has it. Limits of a watch are the bits of an IEEE 754 single.
#[derive(Clone, Debug, PartialEq, Eq)]
pub enum Recorded {
    Open {
        connection: u32,
    },
    Deliver {
        connection: u32,
        shown: Vec<u8>,
    },
    Cut {
        connection: u32,
    },
    Clock {
        milliseconds: u64,
    },
    Answer {
        session: u32,
        end: bool,
        payload: Vec<u8>,
        shown: Vec<u8>,
    },
    Status {
        status: u8,
    },
    WatchOff {
        session: u32,
    },
    WatchAbove {
        session: u32,
        limit: u32,
    },
    WatchOutside {
        session: u32,
        low: u32,
        high: u32,
    },
    /// The list's text as the host gave it.
    Patterns {
        text: Vec<u8>,
    },
}

/// An event's first byte.
pub mod tag {
    pub const OPEN: u8 = 0;
    pub const DELIVER: u8 = 1;
    pub const CUT: u8 = 2;
    pub const CLOCK: u8 = 3;
    pub const ANSWER: u8 = 4;
    pub const STATUS: u8 = 5;
    pub const WATCH_OFF: u8 = 6;
    pub const WATCH_ABOVE: u8 = 7;
    pub const WATCH_OUTSIDE: u8 = 8;
    pub const PATTERNS: u8 = 9;
}

/// A body's bytes.
pub fn body(event: &Recorded, frames: &[u8]) -> Vec<u8> {
    let mut bytes = encode(event);
    bytes.extend(frames);
    bytes
}

/// An event's bytes: its tag, then its fields.
pub fn encode(event: &Recorded) -> Vec<u8> {
    let (tag, fields) = match event {
        Recorded::Open { connection } => (tag::OPEN, numbers(&[*connection])),
        Recorded::Deliver { connection, shown } => {
            let fields = [numbers(&[*connection]), row(shown)];
            (tag::DELIVER, fields.concat())
        }
        Recorded::Cut { connection } => (tag::CUT, numbers(&[*connection])),
        Recorded::Clock { milliseconds } => (tag::CLOCK, milliseconds.to_be_bytes().to_vec()),
        Recorded::Answer {
            session,
            end,
            payload,
            shown,
        } => {
            let end = vec![u8::from(*end)];
            let fields = [numbers(&[*session]), end, row(payload), row(shown)];
            (tag::ANSWER, fields.concat())
        }
        Recorded::Status { status } => (tag::STATUS, vec![*status]),
        Recorded::WatchOff { session } => (tag::WATCH_OFF, numbers(&[*session])),
        Recorded::WatchAbove { session, limit } => (tag::WATCH_ABOVE, numbers(&[*session, *limit])),
        Recorded::WatchOutside { session, low, high } => {
            (tag::WATCH_OUTSIDE, numbers(&[*session, *low, *high]))
        }
        Recorded::Patterns { text } => (tag::PATTERNS, row(text)),
    };
    [vec![tag], fields].concat()
}

fn numbers(numbers: &[u32]) -> Vec<u8> {
    numbers.iter().flat_map(|n| n.to_be_bytes()).collect()
}

/// A row of bytes: its length, then the bytes.
fn row(bytes: &[u8]) -> Vec<u8> {
    [&numbers(&[bytes.len() as u32]), bytes].concat()
}

/// The event that a body begins with, and the frames behind it; None if there is no layout.
pub fn decode(body: &[u8]) -> Option<(Recorded, &[u8])> {
    let (tag, fields) = body.split_first()?;
    let mut fields = Fields(fields);
    let event = fields.event(*tag)?;
    Some((event, fields.0))
}

/// What is not read yet.
struct Fields<'a>(&'a [u8]);

impl Fields<'_> {
    fn event(&mut self, tag: u8) -> Option<Recorded> {
        Some(match tag {
            tag::OPEN => Recorded::Open {
                connection: self.number()?,
            },
            tag::DELIVER => Recorded::Deliver {
                connection: self.number()?,
                shown: self.row(MOST_DELIVERED)?,
            },
            tag::CUT => Recorded::Cut {
                connection: self.number()?,
            },
            tag::CLOCK => Recorded::Clock {
                milliseconds: self.bytes().map(u64::from_be_bytes)?,
            },
            tag::ANSWER => Recorded::Answer {
                session: self.number()?,
                end: self.flag()?,
                payload: self.row(BODY_LIMIT)?,
                shown: self.row(MOST_SHOWN)?,
            },
            tag::STATUS => Recorded::Status {
                status: self.bytes().map(u8::from_be_bytes)?,
            },
            _ => return self.setting(tag),
        })
    }

    /// Watches and patterns.
    fn setting(&mut self, tag: u8) -> Option<Recorded> {
        Some(match tag {
            tag::WATCH_OFF => Recorded::WatchOff {
                session: self.number()?,
            },
            tag::WATCH_ABOVE => Recorded::WatchAbove {
                session: self.number()?,
                limit: self.number()?,
            },
            tag::WATCH_OUTSIDE => Recorded::WatchOutside {
                session: self.number()?,
                low: self.number()?,
                high: self.number()?,
            },
            tag::PATTERNS => Recorded::Patterns {
                text: self.row(BODY_LIMIT)?,
            },
            _ => return None,
        })
    }

    fn bytes<const N: usize>(&mut self) -> Option<[u8; N]> {
        let (bytes, rest) = self.0.split_first_chunk()?;
        self.0 = rest;
        Some(*bytes)
    }

    fn number(&mut self) -> Option<u32> {
        self.bytes().map(u32::from_be_bytes)
    }

    /// 0 or 1 and nothing else, so that each event has one encoding.
    fn flag(&mut self) -> Option<bool> {
        match self.bytes()? {
            [0] => Some(false),
            [1] => Some(true),
            _ => None,
        }
    }

    fn row(&mut self, most: usize) -> Option<Vec<u8>> {
        let length = self.number()? as usize;
        if length > most {
            return None;
        }
        let (bytes, rest) = self.0.split_at_checked(length)?;
        self.0 = rest;
        Some(bytes.to_vec())
    }
}
