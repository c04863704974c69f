//! The verifier (02: judge), after 02's Q-8 and docs/JOURNAL.md: whether a stranger's closed journal is what a
//! fresh server, given each event in turn, would have sent. Its author had seen the proved definitions. `judge` is the verdict over a whole book,
//! from place to place; `Verifier` takes the book in pieces.

mod pieces;
pub mod program;
mod replay;

use std::fmt;

use crate::journal::framing::{self, number, Broken, AROUND, MARK, TRAILER};
use crate::mode::Fresh;

pub use pieces::Verifier;
pub use replay::{Replay, Replayed};

/// The kinds of fault, in the order in which they are looked for.
#[derive(Clone, Copy, Debug, PartialEq, Eq, PartialOrd, Ord)]
pub enum Fault {
    Length,
    Distance,
    Sum,
    Layout,
    Parcels,
    Trailer,
}

impl fmt::Display for Fault {
    fn fmt(&self, f: &mut fmt::Formatter<'_>) -> fmt::Result {
        f.write_str(match self {
            Fault::Length => "length",
            Fault::Distance => "distance",
            Fault::Sum => "sum",
            Fault::Layout => "layout",
            Fault::Parcels => "parcels",
            Fault::Trailer => "closing trailer",
        })
    }
}

impl From<Broken> for Fault {
    fn from(broken: Broken) -> Fault {
        match broken {
            Broken::TooLong | Broken::CutShort => Fault::Length,
            Broken::Distance => Fault::Distance,
            Broken::Sum => Fault::Sum,
        }
    }
}

/// The first wrong entry is counted from 0; the closing trailer counts as the next entry.
#[derive(Clone, Copy, Debug, PartialEq, Eq)]
pub enum Verdict {
    Accepted { entries: u64 },
    Wrong { entry: u64, fault: Fault },
}

impl fmt::Display for Verdict {
    /// The line that `verify` prints.
    fn fmt(&self, f: &mut fmt::Formatter<'_>) -> fmt::Result {
        match self {
            Verdict::Accepted { entries } => write!(f, "accepted: {entries} entries"),
            Verdict::Wrong { entry, fault } => write!(f, "entry {entry}: {fault}"),
        }
    }
}

/// Where a reading stands: what was passed, and the server after it.
struct Place {
    /// Entries passed.
    count: u64,
    at: u64,
    /// Offset of the entry before; 0 if there is none.
    last: u64,
    replay: Replay,
}

impl Place {
    fn first(fresh: Fresh) -> Place {
        Place {
            count: 0,
            at: 0,
            last: 0,
            replay: Replay::new(fresh),
        }
    }

    fn wrong(&self, fault: Fault) -> Verdict {
        Verdict::Wrong {
            entry: self.count,
            fault,
        }
    }

    /// Passes the entry that bytes begin with; its size, or what is wrong with it.
    fn pass(&mut self, bytes: &[u8]) -> Result<usize, Fault> {
        let body = framing::body(bytes)?;
        self.replay.body(body)?;
        let size = body.len() + AROUND;
        self.last = self.at;
        self.at += size as u64;
        self.count += 1;
        Ok(size)
    }

    /// The closing trailer: just twelve bytes, with the last offset and the number of entries.
    fn trailer(&self, bytes: &[u8]) -> Verdict {
        let agrees = |at, expected| number(bytes, at).map(u64::from) == Some(expected);
        match bytes.len() == TRAILER && agrees(4, self.last) && agrees(8, self.count) {
            true => Verdict::Accepted {
                entries: self.count,
            },
            false => self.wrong(Fault::Trailer),
        }
    }
}

/// The verdict over a whole book, from a fresh server.
pub fn judge(fresh: Fresh, book: &[u8]) -> Verdict {
    let mut place = Place::first(fresh);
    let mut rest = book;
    while !rest.starts_with(&MARK) {
        match place.pass(rest) {
            Ok(size) => rest = &rest[size..],
            Err(fault) => return place.wrong(fault),
        }
    }
    place.trailer(rest)
}
