//! The journal (docs/JOURNAL.md): entries one behind the other in a book of fixed length, and the calls that
//! keep one.

use reference::journal::framing::{AROUND, BODY_LIMIT, MARK, REACH, TRAILER};
use reference::journal::layout::{tag, MOST_DELIVERED, MOST_SHOWN};
use reference::journal::Kept;
use reference::{Reply, Watch};

use crate::crc::{crc32, plain_crc32};
use crate::server::Server;

#[derive(Clone)]
pub struct Journal {
    book: Box<[u8]>,
    written: usize,
    /// Where the last entry begins.
    last: u32,
    count: u32,
    closed: bool,
}

impl Journal {
    /// A new journal in this book; None if a closing trailer does not fit.
    pub fn new(book: Box<[u8]>) -> Option<Journal> {
        let room = book.len() >= TRAILER;
        room.then_some(Journal {
            book,
            written: 0,
            last: 0,
            count: 0,
            closed: false,
        })
    }

    /// Begins another one over it.
    pub fn begin(&mut self) {
        (self.written, self.last, self.count) = (0, 0, 0);
        self.closed = false;
    }

    /// The bytes written so far.
    pub fn written(&self) -> &[u8] {
        &self.book[..self.written]
    }

    /// The whole book.
    pub fn book(&self) -> &[u8] {
        &self.book
    }

    /// The closing trailer.
    pub fn close(&mut self) -> Kept {
        if self.closed {
            return Kept::Closed;
        }
        let place = &mut self.book[self.written..][..TRAILER];
        place[..4].copy_from_slice(&MARK);
        place[4..8].copy_from_slice(&self.last.to_be_bytes());
        place[8..].copy_from_slice(&self.count.to_be_bytes());
        self.written += TRAILER;
        self.closed = true;
        Kept::Written
    }

    /// The entry of a body that comes in parts.
    #[inline]
    fn append<const PARTS: usize>(&mut self, parts: [&[u8]; PARTS]) -> Kept {
        if self.closed {
            return Kept::Closed;
        }
        let length: usize = parts.iter().map(|part| part.len()).sum();
        let size = length + AROUND;
        if self.book.len().min(REACH) - self.written < size + TRAILER {
            return Kept::NoRoom;
        }
        let entry = &mut self.book[self.written..][..size];
        let (headed, behind) = entry.split_at_mut(4 + length);
        headed[..4].copy_from_slice(&(length as u32).to_be_bytes());
        let mut at = 4;
        for part in parts {
            headed[at..at + part.len()].copy_from_slice(part);
            at += part.len();
        }
        behind[..4].copy_from_slice(&(at as u32).to_be_bytes());
        behind[4..].copy_from_slice(&crc32(headed).to_be_bytes());
        self.last = self.written as u32;
        self.count += 1;
        self.written += size;
        Kept::Written
    }
}

/// An entry in a book: where its body stands, and the next place.
#[derive(Clone, Copy, Debug, PartialEq, Eq)]
pub struct Entry {
    pub body: usize,
    pub length: usize,
    pub next: usize,
}

/// The whole entry that begins at a place. A call of its own, like the library's.
#[inline(never)]
pub fn forward(book: &[u8], at: usize) -> Option<Entry> {
    entry_at(book, at, crc32)
}

/// The same with the sum taken a byte a step.
#[inline(never)]
pub fn forward_by_bytes(book: &[u8], at: usize) -> Option<Entry> {
    entry_at(book, at, plain_crc32)
}

#[inline(always)]
fn entry_at(book: &[u8], at: usize, sum: fn(&[u8]) -> u32) -> Option<Entry> {
    let book = &book[..book.len().min(REACH)];
    let bytes = book.get(at..)?;
    let length = u32::from_be_bytes(*bytes.first_chunk()?) as usize;
    if length > BODY_LIMIT {
        return None;
    }
    let (headed, behind) = bytes.split_at_checked(4 + length)?;
    let (distance, behind) = behind.split_first_chunk()?;
    let right = u32::from_be_bytes(*distance) as usize == headed.len()
        && u32::from_be_bytes(*behind.first_chunk()?) == sum(headed);
    right.then_some(Entry {
        body: at + 4,
        length,
        next: at + length + AROUND,
    })
}

/// A tag and so many numbers.
fn head<const BYTES: usize>(tag: u8, numbers: &[u32]) -> [u8; BYTES] {
    let mut head = [tag; BYTES];
    for (place, number) in head[1..].chunks_exact_mut(4).zip(numbers) {
        place.copy_from_slice(&number.to_be_bytes());
    }
    head
}

/// What was done, and its entry: one of a refused event has none.
fn kept<const PARTS: usize>(
    reply: Reply,
    journal: &mut Journal,
    parts: [&[u8]; PARTS],
) -> (Reply, Kept) {
    match reply.refusal {
        0 => (reply, journal.append(parts)),
        _ => (reply, Kept::Written),
    }
}

/// Each call with its entry. Those that the library's speed is measured by are calls of their own, like it.
impl Server {
    pub fn keep_open(&mut self, connection: u32, journal: &mut Journal) -> (Reply, Kept) {
        let reply = self.open(connection);
        kept(reply, journal, [&head::<5>(tag::OPEN, &[connection])])
    }

    #[inline(never)]
    pub fn keep_deliver(
        &mut self,
        connection: u32,
        bytes: &[u8],
        out: &mut [u8],
        journal: &mut Journal,
    ) -> (Reply, Kept) {
        let shown = &bytes[..bytes.len().min(MOST_DELIVERED)];
        let reply = self.deliver(connection, shown, out);
        let head: [u8; 9] = head(tag::DELIVER, &[connection, shown.len() as u32]);
        let frames = &out[..reply.output as usize];
        kept(reply, journal, [&head, shown, frames])
    }

    pub fn keep_cut(
        &mut self,
        connection: u32,
        out: &mut [u8],
        journal: &mut Journal,
    ) -> (Reply, Kept) {
        let reply = self.cut(connection, out);
        let frames = &out[..reply.output as usize];
        kept(
            reply,
            journal,
            [&head::<5>(tag::CUT, &[connection]), frames],
        )
    }

    pub fn keep_clock(
        &mut self,
        milliseconds: u64,
        out: &mut [u8],
        journal: &mut Journal,
    ) -> (Reply, Kept) {
        let reply = self.clock(milliseconds, out);
        let halves = [(milliseconds >> 32) as u32, milliseconds as u32];
        let frames = &out[..reply.output as usize];
        kept(reply, journal, [&head::<9>(tag::CLOCK, &halves), frames])
    }

    #[inline(never)]
    pub fn keep_answer(
        &mut self,
        session: u32,
        payload: &[u8],
        end: u8,
        shown: &[u8],
        out: &mut [u8],
        journal: &mut Journal,
    ) -> (Reply, Kept) {
        let shown = &shown[..shown.len().min(MOST_SHOWN)];
        let reply = self.answer(session, payload, end, shown, out);
        let mut head = [tag::ANSWER; 10];
        head[1..5].copy_from_slice(&session.to_be_bytes());
        head[5] = u8::from(end != 0);
        head[6..].copy_from_slice(&(payload.len() as u32).to_be_bytes());
        let length = (shown.len() as u32).to_be_bytes();
        let frames = &out[..reply.output as usize];
        kept(reply, journal, [&head, payload, &length, shown, frames])
    }

    pub fn keep_status(&mut self, status: u8, journal: &mut Journal) -> Kept {
        self.status(status);
        journal.append([&[tag::STATUS, status]])
    }

    pub fn keep_watch(
        &mut self,
        session: u32,
        watch: Watch,
        journal: &mut Journal,
    ) -> (Reply, Kept) {
        let reply = self.watch(session, watch);
        match watch {
            Watch::Off => kept(reply, journal, [&head::<5>(tag::WATCH_OFF, &[session])]),
            Watch::Above { limit } => {
                let head: [u8; 9] = head(tag::WATCH_ABOVE, &[session, limit.bits()]);
                kept(reply, journal, [&head])
            }
            Watch::Outside { low, high } => {
                let numbers = [session, low.bits(), high.bits()];
                kept(reply, journal, [&head::<13>(tag::WATCH_OUTSIDE, &numbers)])
            }
        }
    }

    pub fn keep_patterns(&mut self, text: &[u8], journal: &mut Journal) -> (Reply, Kept) {
        let reply = self.patterns(text);
        let head: [u8; 5] = head(tag::PATTERNS, &[text.len() as u32]);
        kept(reply, journal, [&head, text])
    }
}
