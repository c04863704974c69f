//! The library's calls that keep a journal, through the C interface itself.

use hislip::sys;
use hislip::sys::journal::*;
use reference::{Event, Fresh, Reply, Watch};

use crate::hostile::Author;
use crate::watch::LONGEST;

/// A server of the library and the writer's words; the book is lent with each call.
#[derive(Clone)]
pub struct Keeper {
    words: Vec<u64>,
    strings: Vec<u8>,
    /// Bytes written, offset of the last entry, number of entries, 0 while the journal is open.
    pub journal: [u64; 4],
}

/// What every kept call is lent: the server's memory, the writer's words, the book and its length.
type Lent = (*mut u64, *mut u8, *mut u64, *mut u8, usize);

fn done(done: hislip_kept_done) -> (Reply, u64) {
    let reply = Reply {
        refusal: done.refusal,
        output: done.output,
        ..Reply::default()
    };
    (reply, done.kept)
}

fn delivered(told: hislip_kept_delivery) -> (Reply, u64) {
    let reply = Reply {
        refusal: told.refusal,
        outcome: told.outcome,
        session: told.session,
        taken: told.taken,
        output: told.output,
        missing: told.missing,
        ..Reply::default()
    };
    (reply, told.kept)
}

fn answered(told: hislip_kept_answered) -> (Reply, u64) {
    let reply = Reply {
        refusal: told.refusal,
        withheld: told.withheld,
        output: told.output,
        ..Reply::default()
    };
    (reply, told.kept)
}

fn listed(told: hislip_kept_listed) -> (Reply, u64) {
    let reply = Reply {
        refusal: told.refusal,
        pattern: told.pattern,
        place: told.place,
        ..Reply::default()
    };
    (reply, told.kept)
}

// SAFETY of all calls: the lent memory has the lengths that the library asks for; all slices are apart.
impl Keeper {
    /// A fresh server; the writer's words hold what no journal was begun with.
    pub fn new(fresh: Fresh) -> Keeper {
        let mut keeper = Keeper {
            words: vec![0; unsafe { sys::hislip_words() } as usize],
            strings: vec![0; unsafe { sys::hislip_string_bytes() } as usize],
            journal: [7; 4],
        };
        let (words, strings) = (keeper.words.as_mut_ptr(), keeper.strings.as_mut_ptr());
        unsafe { sys::hislip_new(words, strings, fresh.vendor, fresh.prefers as u8) };
        keeper
    }

    pub fn begin(&mut self, book: &mut [u8]) -> u64 {
        let (_, _, j, b, n) = self.lent(book);
        unsafe { hislip_journal_new(j, b, n) }.kept
    }

    pub fn close(&mut self, book: &mut [u8]) -> u64 {
        let (_, _, j, b, n) = self.lent(book);
        unsafe { hislip_journal_close(j, b, n) }.kept
    }

    fn lent(&mut self, book: &mut [u8]) -> Lent {
        let (words, strings) = (self.words.as_mut_ptr(), self.strings.as_mut_ptr());
        let journal = self.journal.as_mut_ptr();
        (words, strings, journal, book.as_mut_ptr(), book.len())
    }

    /// An event and its entry: the answer, and the number for what became of the entry.
    pub fn keep(&mut self, event: &Event, out: &mut [u8], book: &mut [u8]) -> (Reply, u64) {
        let lent = self.lent(book);
        let (w, s, j, b, n) = lent;
        let (o, m) = (out.as_mut_ptr(), out.len());
        match event {
            Event::Open { connection } => {
                done(unsafe { hislip_keep_open(w, s, *connection, j, b, n) })
            }
            Event::Cut { connection, .. } => {
                done(unsafe { hislip_keep_cut(w, s, *connection, o, m, j, b, n) })
            }
            Event::Clock { milliseconds, .. } => {
                done(unsafe { hislip_keep_clock(w, s, *milliseconds, o, m, j, b, n) })
            }
            Event::Status { status } => {
                let told = unsafe { hislip_keep_status(w, s, *status, j, b, n) };
                (Reply::default(), told.kept)
            }
            Event::Deliver {
                connection, bytes, ..
            } => {
                let (p, l) = (bytes.as_ptr(), bytes.len());
                delivered(unsafe { hislip_keep_deliver(w, s, *connection, p, l, o, m, j, b, n) })
            }
            Event::Answer { .. } => answer(lent, event, out),
            Event::Watch { session, watch } => keep_watch(lent, *session, *watch),
            Event::Patterns { text } => {
                let (t, l) = (text.as_ptr(), text.len());
                listed(unsafe { hislip_keep_patterns(w, s, t, l, j, b, n) })
            }
        }
    }
}

fn answer((w, s, j, b, n): Lent, event: &Event, out: &mut [u8]) -> (Reply, u64) {
    let Event::Answer {
        session,
        payload,
        end,
        shown,
        ..
    } = event
    else {
        unreachable!("an answer");
    };
    let (o, m) = (out.as_mut_ptr(), out.len());
    let (p, l) = (payload.as_ptr(), payload.len());
    let (u, k) = (shown.as_ptr(), shown.len());
    answered(unsafe { hislip_keep_answer(w, s, *session, p, l, *end, u, k, o, m, j, b, n) })
}

fn keep_watch((w, s, j, b, n): Lent, session: u32, watch: Watch) -> (Reply, u64) {
    done(unsafe {
        match watch {
            Watch::Off => hislip_keep_watch_off(w, s, session, j, b, n),
            Watch::Above { limit } => hislip_keep_watch_above(w, s, session, limit.0, j, b, n),
            Watch::Outside { low, high } => {
                hislip_keep_watch_outside(w, s, session, low.0, high.0, j, b, n)
            }
        }
    })
}

/// A closed journal.
#[derive(Clone, Debug)]
pub struct Closed {
    pub fresh: Fresh,
    pub book: Vec<u8>,
    pub entries: u64,
}

/// The list of a seed on the library: its journal, begun and closed at two places of the list. Begun at 0, it
/// has every event that was not refused.
pub fn closed(seed: u64, begun: usize, ended: usize) -> Closed {
    /// More than any list takes.
    const ROOM: usize = 1 << 22;
    let mut author = Author::new(seed);
    let fresh = author.fresh;
    let mut keeper = Keeper::new(fresh);
    let mut book = vec![0; ROOM];
    let mut out = vec![0; LONGEST];
    assert_eq!(keeper.begin(&mut book), 0);
    for place in 0..ended {
        if place == begun {
            assert_eq!(keeper.begin(&mut book), 0);
        }
        let event = author.event();
        let (reply, kept) = keeper.keep(&event, &mut out[..event.room()], &mut book);
        assert_eq!(kept, 0, "there is room");
        author.learn(&event, &reply);
    }
    assert_eq!(keeper.close(&mut book), 0);
    book.truncate(keeper.journal[0] as usize);
    Closed {
        fresh,
        book,
        entries: keeper.journal[2],
    }
}
