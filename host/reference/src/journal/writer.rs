//! The writer: entries behind one another in a lent slice of bytes, the book.

use crate::journal::framing::{entry, trailer, used, BODY_LIMIT, TRAILER};

/// What became of an entry; the discriminants are the C interface's.
#[derive(Clone, Copy, Debug, PartialEq, Eq)]
pub enum Kept {
    Written = 0,
    NoRoom = 1,
    Closed = 2,
}

/// The writer's four words, which may hold any bits.
#[derive(Clone, Copy, Debug, Default, PartialEq, Eq)]
pub struct Writer {
    /// Bytes written.
    pub written: u64,
    /// Offset of the last entry.
    pub last: u64,
    /// Number of entries.
    pub count: u64,
    /// 0 while the journal is open.
    pub closed: u64,
}

impl Writer {
    /// Begins a new journal, whatever the words were. Of the book nothing is written.
    pub fn begin(&mut self, book: &[u8]) -> Kept {
        if used(book).len() < TRAILER {
            return Kept::NoRoom;
        }
        *self = Writer::default();
        Kept::Written
    }

    /// Writes the entry of a body, which has at most 5,000 bytes.
    pub fn append(&mut self, book: &mut [u8], body: &[u8]) -> Kept {
        assert!(
            body.len() <= BODY_LIMIT,
            "the body of an accepted event fits"
        );
        let entry = entry(body);
        let began = self.written;
        let kept = self.write(book, &entry, entry.len() + TRAILER);
        if kept == Kept::Written {
            self.last = began;
            self.count = self.count.wrapping_add(1);
        }
        kept
    }

    /// Writes the closing trailer.
    pub fn close(&mut self, book: &mut [u8]) -> Kept {
        let trailer = trailer(self.last as u32, self.count as u32);
        let kept = self.write(book, &trailer, TRAILER);
        if kept == Kept::Written {
            self.closed = 1;
        }
        kept
    }

    /// "Closed" first, then "no room" if less than `wanted` is left; with either nothing is written.
    fn write(&mut self, book: &mut [u8], bytes: &[u8], wanted: usize) -> Kept {
        if self.closed != 0 {
            return Kept::Closed;
        }
        let left = (used(book).len() as u64).saturating_sub(self.written);
        if left < wanted as u64 {
            return Kept::NoRoom;
        }
        let at = self.written as usize;
        book[at..at + bytes.len()].copy_from_slice(bytes);
        self.written += bytes.len() as u64;
        Kept::Written
    }
}
