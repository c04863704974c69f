//! A journal of a server's events.

use crate::event::{Answer, Event};
use crate::outcome::{Answered, Delivery, Outcome};
use crate::readings::Watch;
use crate::refusal::Refusal;
use crate::server::Server;
use crate::sys::journal as sys;

/// What became of an event's entry.
#[derive(Clone, Copy, Debug, PartialEq, Eq, Hash)]
#[must_use = "an event without an entry leaves a gap in the journal"]
pub enum Kept {
    /// It is written; or the event was refused, and there is nothing to write.
    Written,
    /// The entry and a closing trailer do not fit in what is left; nothing is written.
    NoRoom,
    /// The journal is closed; nothing is written.
    Closed,
}

impl Kept {
    pub(crate) fn of(number: u64) -> Kept {
        match number {
            0 => Kept::Written,
            1 => Kept::NoRoom,
            2 => Kept::Closed,
            _ => panic!("the interface has no such answer: {number}"),
        }
    }
}

/// Entries in memory of its own, as docs/JOURNAL.md lays them out. Events are put into it by
/// [`Server::keep`].
///
/// ```
/// use hislip::{Event, Journal, Kept, Mode, Server};
///
/// let mut server = Server::new(*b"AA", Mode::Synchronized);
/// let mut journal = Journal::new(4096).expect("room for a closing trailer");
/// let (opened, kept) = server.keep(Event::Open { connection: 0.into() }, &mut journal);
/// assert!(opened.is_ok() && kept == Kept::Written);
/// assert_eq!(journal.close(), Kept::Written);
/// assert_eq!(journal.bodies(), [[0, 0, 0, 0, 0]]);
/// assert_eq!(journal.written().len(), 17 + 12);
/// ```
#[derive(Clone, Debug)]
pub struct Journal {
    words: [u64; 4],
    book: Box<[u8]>,
}

impl Journal {
    /// A new, empty journal with room for so many bytes; None if a closing trailer does not fit, under 12.
    /// Bytes past 2^31 are never used.
    ///
    /// # Panics
    ///
    /// As [`Server`] says: never, with the proved archive.
    pub fn new(room: usize) -> Option<Journal> {
        let mut journal = Journal {
            words: [0; 4],
            book: vec![0; room].into(),
        };
        let (words, book, length) = journal.lent();
        // SAFETY: words and book are the journal's own, and apart.
        let told = unsafe { sys::hislip_journal_new(words, book, length) };
        (Kept::of(told.kept) == Kept::Written).then_some(journal)
    }

    /// Writes the closing trailer, which an open journal always has room for.
    ///
    /// # Panics
    ///
    /// As [`Server`] says: never, with the proved archive.
    pub fn close(&mut self) -> Kept {
        let (words, book, length) = self.lent();
        // SAFETY: as for `new`.
        Kept::of(unsafe { sys::hislip_journal_close(words, book, length) }.kept)
    }

    /// The bytes written so far: of a closed journal, all of it.
    pub fn written(&self) -> &[u8] {
        &self.book[..self.words[0] as usize]
    }

    /// How many entries are written.
    pub fn entries(&self) -> u64 {
        self.words[2]
    }

    /// The bodies of the entries, first to last.
    pub fn bodies(&self) -> Vec<&[u8]> {
        let book = self.written();
        let mut bodies = Vec::new();
        let mut at = 0;
        loop {
            // SAFETY: the book is borrowed, and the call only reads.
            let entry = unsafe { sys::hislip_journal_forward(book.as_ptr(), book.len(), at) };
            if entry.found == 0 {
                return bodies;
            }
            bodies.push(&book[entry.body as usize..][..entry.length as usize]);
            at = entry.next;
        }
    }

    pub(crate) fn lent(&mut self) -> (*mut u64, *mut u8, usize) {
        let (words, length) = (self.words.as_mut_ptr(), self.book.len());
        (words, self.book.as_mut_ptr(), length)
    }
}

impl Server {
    /// Any event, and its entry in a journal. The answer is that of the event's own method; of a delivery's
    /// bytes only the first 1,040 are looked at. With [`Kept::NoRoom`] and [`Kept::Closed`] what the event
    /// did stands.
    ///
    /// # Panics
    ///
    /// As [`Server`] says: never, with the proved archive.
    pub fn keep(
        &mut self,
        event: Event,
        journal: &mut Journal,
    ) -> (Result<Answer<'_>, Refusal>, Kept) {
        match event {
            Event::Deliver { connection, bytes } => {
                self.keep_delivery(connection.number(), bytes, journal)
            }
            Event::Answer {
                session,
                payload,
                end,
                shown,
            } => self.keep_answer(session.into(), payload, end, shown, journal),
            Event::Watch { session, watch } => self.keep_watch(session.into(), watch, journal),
            Event::Patterns { list } => {
                let (set, kept) = self.keep_patterns(list, journal);
                (set.map(|()| Answer::Done).map_err(Refusal::from), kept)
            }
            _ => self.keep_plain(event, journal),
        }
    }

    fn keep_delivery(
        &mut self,
        connection: u32,
        bytes: &[u8],
        journal: &mut Journal,
    ) -> (Result<Answer<'_>, Refusal>, Kept) {
        let (journal, book, length) = journal.lent();
        let (words, strings) = self.memory();
        let (out, room) = self.output();
        let (at, size) = (bytes.as_ptr(), bytes.len());
        // SAFETY: as for `deliver`; the journal is borrowed apart from `self`.
        let told = unsafe {
            sys::hislip_keep_deliver(
                words, strings, connection, at, size, out, room, journal, book, length,
            )
        };
        let answer = Refusal::check(told.refusal).map(|()| {
            Answer::Delivery(Delivery {
                outcome: Outcome::of(told.outcome, told.session),
                taken: told.taken as usize,
                missing: told.missing,
                frames: self.frames(told.output),
            })
        });
        (answer, Kept::of(told.kept))
    }

    fn keep_answer(
        &mut self,
        session: u32,
        payload: &[u8],
        end: bool,
        shown: &[u8],
        journal: &mut Journal,
    ) -> (Result<Answer<'_>, Refusal>, Kept) {
        let (journal, book, length) = journal.lent();
        let (words, strings) = self.memory();
        let (out, room) = self.output();
        let (at, size) = (payload.as_ptr(), payload.len());
        let (next, unread) = (shown.as_ptr(), shown.len());
        let end = end.into();
        // SAFETY: as for `keep_delivery`.
        let told = unsafe {
            sys::hislip_keep_answer(
                words, strings, session, at, size, end, next, unread, out, room, journal, book,
                length,
            )
        };
        let answer = Refusal::check(told.refusal).map(|()| {
            let frames = self.frames(told.output);
            Answer::Answered(match told.withheld {
                0 => Answered::Sent(frames),
                _ => Answered::Withheld(frames),
            })
        });
        (answer, Kept::of(told.kept))
    }

    fn keep_watch(
        &mut self,
        session: u32,
        watch: Watch,
        journal: &mut Journal,
    ) -> (Result<Answer<'_>, Refusal>, Kept) {
        let (journal, book, length) = journal.lent();
        let (words, strings) = self.memory();
        // SAFETY: as for `keep_delivery`.
        let told = unsafe {
            match watch {
                Watch::Off => {
                    sys::hislip_keep_watch_off(words, strings, session, journal, book, length)
                }
                Watch::Above { limit } => sys::hislip_keep_watch_above(
                    words, strings, session, limit, journal, book, length,
                ),
                Watch::Outside { low, high } => sys::hislip_keep_watch_outside(
                    words, strings, session, low, high, journal, book, length,
                ),
            }
        };
        let answer = Refusal::check(told.refusal).map(|()| Answer::Done);
        (answer, Kept::of(told.kept))
    }

    /// The events whose answer has no more than a refusal and frames.
    fn keep_plain(
        &mut self,
        event: Event,
        journal: &mut Journal,
    ) -> (Result<Answer<'_>, Refusal>, Kept) {
        let (journal, book, length) = journal.lent();
        let (words, strings) = self.memory();
        let (out, room) = self.output();
        // SAFETY of the four: as for `keep_delivery`.
        let told = match event {
            Event::Open { connection } => unsafe {
                let number = connection.number();
                sys::hislip_keep_open(words, strings, number, journal, book, length)
            },
            Event::Cut { connection } => unsafe {
                let number = connection.number();
                sys::hislip_keep_cut(words, strings, number, out, room, journal, book, length)
            },
            Event::Clock { milliseconds } => unsafe {
                sys::hislip_keep_clock(
                    words,
                    strings,
                    milliseconds,
                    out,
                    room,
                    journal,
                    book,
                    length,
                )
            },
            Event::Status { status } => unsafe {
                let kept = sys::hislip_keep_status(words, strings, status, journal, book, length);
                sys::hislip_kept_done {
                    refusal: 0,
                    output: 0,
                    kept: kept.kept,
                }
            },
            _ => unreachable!("the others have their own"),
        };
        let answer = Refusal::check(told.refusal).map(|()| match event {
            Event::Cut { .. } | Event::Clock { .. } => Answer::Frames(self.frames(told.output)),
            _ => Answer::Done,
        });
        (answer, Kept::of(told.kept))
    }
}
