//! `journal repair`: the whole entries of a journal cut short, closed.

use reference::journal::framing::{body, used, Broken, MARK, TRAILER};
use reference::journal::{reader, Kept, Writer};
use reference::verifier::Fault;

/// What became of a book.
#[derive(Debug, PartialEq, Eq)]
pub enum Repaired {
    /// It ends with a trailer that agrees with its entries.
    ClosedAlready { entries: u64 },
    /// It begins with neither an entry nor a part of one.
    NoJournal,
    Closed {
        book: Vec<u8>,
        entries: u64,
        left_out: LeftOut,
    },
}

/// The bytes behind the whole entries.
#[derive(Debug, PartialEq, Eq)]
pub struct LeftOut {
    pub bytes: usize,
    pub why: Why,
}

#[derive(Clone, Copy, Debug, PartialEq, Eq)]
pub enum Why {
    CutShort,
    Wrong(Fault),
    /// A whole entry that leaves no room for the trailer, as our writer leaves none.
    NoRoom,
}

impl LeftOut {
    pub fn describe(&self) -> String {
        let why = match self.why {
            _ if self.bytes == 0 => return "nothing left out".into(),
            Why::CutShort => "cut short".into(),
            Why::Wrong(fault) => format!("wrong {fault}"),
            Why::NoRoom => "no room".into(),
        };
        format!("{} bytes behind them left out: {why}", self.bytes)
    }
}

pub fn repair(book: &[u8]) -> Repaired {
    let (mut writer, mut closed) = (Writer::default(), vec![0; book.len() + TRAILER]);
    let mut end = 0;
    for found in reader::entries(book) {
        if writer.append(&mut closed, found.body) != Kept::Written {
            break;
        }
        end = found.next;
    }
    writer.close(&mut closed);
    closed.truncate(writer.written as usize);
    let entries = writer.count;
    if closed == book {
        return Repaired::ClosedAlready { entries };
    }
    match why(&used(book)[end..]) {
        Why::Wrong(fault) if entries == 0 && fault != Fault::Trailer => Repaired::NoJournal,
        why => Repaired::Closed {
            book: closed,
            entries,
            left_out: LeftOut {
                bytes: book.len() - end,
                why,
            },
        },
    }
}

/// Why the entries end here.
fn why(rest: &[u8]) -> Why {
    match body(rest) {
        _ if rest.starts_with(&MARK) && rest.len() < TRAILER => Why::CutShort,
        _ if rest.starts_with(&MARK) => Why::Wrong(Fault::Trailer),
        Err(Broken::CutShort) => Why::CutShort,
        Err(broken) => Why::Wrong(broken.into()),
        Ok(_) => Why::NoRoom,
    }
}
