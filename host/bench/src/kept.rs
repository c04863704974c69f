//! The two sides with a journal kept: every event has its entry in a book that is lent. A full book is closed
//! and begun anew, which leaves out the entry that found no room.

use hislip::sys::journal as sys;
use ordinary::Journal;
use reference::journal::Kept;
use reference::{Reply, Watch};

use crate::contender::{Contender, Library, Ordinary, Sum, HIGH, LOW};

/// As long as the gateway's.
const BOOK: usize = 8 << 20;
const NO_ROOM: u64 = Kept::NoRoom as u64;

/// Written to before the time is taken, so that no page is met for the first time.
fn book() -> Box<[u8]> {
    vec![0x5a; BOOK].into()
}

pub struct KeptLibrary {
    library: Library,
    journal: [u64; 4],
    book: Box<[u8]>,
}

// SAFETY of the calls: as for `Library`; the journal's words and book are apart from all else.
impl KeptLibrary {
    fn begin(&mut self) {
        let (journal, book, length) = self.lent();
        unsafe { assert_eq!(sys::hislip_journal_new(journal, book, length).kept, 0) };
    }

    fn lent(&mut self) -> (*mut u64, *mut u8, usize) {
        let length = self.book.len();
        (self.journal.as_mut_ptr(), self.book.as_mut_ptr(), length)
    }

    #[cold]
    fn turn(&mut self) {
        let (journal, book, length) = self.lent();
        unsafe { assert_eq!(sys::hislip_journal_close(journal, book, length).kept, 0) };
        self.begin();
    }

    #[inline(always)]
    fn told(&mut self, reply: Reply, kept: u64) -> Reply {
        if kept == NO_ROOM {
            self.turn();
        }
        reply
    }
}

impl Contender for KeptLibrary {
    fn new() -> KeptLibrary {
        let mut library = KeptLibrary {
            library: Library::new(),
            journal: [0; 4],
            book: book(),
        };
        library.begin();
        library
    }

    fn open(&mut self, connection: u32) {
        let (words, strings) = self.library.memory();
        let (journal, book, length) = self.lent();
        let told =
            unsafe { sys::hislip_keep_open(words, strings, connection, journal, book, length) };
        self.told(Reply::refused(told.refusal), told.kept);
    }

    #[inline(always)]
    fn deliver(&mut self, connection: u32, bytes: &[u8], out: &mut [u8]) -> Reply {
        let (words, strings) = self.library.memory();
        let (journal, book, length) = self.lent();
        let (shown, len) = (bytes.as_ptr(), bytes.len());
        let (out, out_len) = (out.as_mut_ptr(), out.len());
        let told = unsafe {
            sys::hislip_keep_deliver(
                words, strings, connection, shown, len, out, out_len, journal, book, length,
            )
        };
        let reply = Reply {
            refusal: told.refusal,
            outcome: told.outcome,
            session: told.session,
            taken: told.taken,
            output: told.output,
            missing: told.missing,
            ..Reply::default()
        };
        self.told(reply, told.kept)
    }

    #[inline(always)]
    fn answer(&mut self, session: u32, payload: &[u8], end: bool, out: &mut [u8]) -> Reply {
        let (words, strings) = self.library.memory();
        let (journal, book, length) = self.lent();
        let (bytes, len, end) = (payload.as_ptr(), payload.len(), end.into());
        let (out, out_len) = (out.as_mut_ptr(), out.len());
        let shown: &[u8] = &[];
        let (unread, none) = (shown.as_ptr(), shown.len());
        let told = unsafe {
            sys::hislip_keep_answer(
                words, strings, session, bytes, len, end, unread, none, out, out_len, journal,
                book, length,
            )
        };
        let reply = Reply {
            refusal: told.refusal,
            output: told.output,
            withheld: told.withheld,
            ..Reply::default()
        };
        self.told(reply, told.kept)
    }

    fn watch(&mut self, session: u32) -> Reply {
        let (words, strings) = self.library.memory();
        let (journal, book, length) = self.lent();
        let told = unsafe {
            sys::hislip_keep_watch_outside(
                words, strings, session, LOW, HIGH, journal, book, length,
            )
        };
        self.told(Reply::refused(told.refusal), told.kept)
    }

    fn allow(&mut self, text: &[u8]) -> Reply {
        let (words, strings) = self.library.memory();
        let (journal, book, length) = self.lent();
        let (text, len) = (text.as_ptr(), text.len());
        let told =
            unsafe { sys::hislip_keep_patterns(words, strings, text, len, journal, book, length) };
        let reply = Reply {
            pattern: told.pattern,
            place: told.place,
            ..Reply::refused(told.refusal)
        };
        self.told(reply, told.kept)
    }

    fn read(bytes: &[u8], sum: Sum) -> Reply {
        Library::read(bytes, sum)
    }

    fn book(&self) -> (&[u8], usize) {
        (&self.book, self.journal[0] as usize)
    }
}

pub struct KeptOrdinary {
    ordinary: Ordinary,
    journal: Journal,
}

impl KeptOrdinary {
    #[cold]
    fn turn(&mut self) {
        assert_eq!(self.journal.close(), Kept::Written);
        self.journal.begin();
    }

    #[inline(always)]
    fn told(&mut self, (reply, kept): (Reply, Kept)) -> Reply {
        if kept == Kept::NoRoom {
            self.turn();
        }
        reply
    }
}

impl Contender for KeptOrdinary {
    fn new() -> KeptOrdinary {
        KeptOrdinary {
            ordinary: Ordinary::new(),
            journal: Journal::new(book()).expect("room for a closing trailer"),
        }
    }

    fn open(&mut self, connection: u32) {
        let told = self.ordinary.0.keep_open(connection, &mut self.journal);
        self.told(told);
    }

    #[inline(always)]
    fn deliver(&mut self, connection: u32, bytes: &[u8], out: &mut [u8]) -> Reply {
        let server = &mut self.ordinary.0;
        let told = server.keep_deliver(connection, bytes, out, &mut self.journal);
        self.told(told)
    }

    #[inline(always)]
    fn answer(&mut self, session: u32, payload: &[u8], end: bool, out: &mut [u8]) -> Reply {
        let server = &mut self.ordinary.0;
        let told = server.keep_answer(session, payload, end.into(), &[], out, &mut self.journal);
        self.told(told)
    }

    fn watch(&mut self, session: u32) -> Reply {
        let watch = Watch::outside(LOW, HIGH);
        let told = self
            .ordinary
            .0
            .keep_watch(session, watch, &mut self.journal);
        self.told(told)
    }

    fn allow(&mut self, text: &[u8]) -> Reply {
        let told = self.ordinary.0.keep_patterns(text, &mut self.journal);
        self.told(told)
    }

    fn read(bytes: &[u8], sum: Sum) -> Reply {
        Ordinary::read(bytes, sum)
    }

    fn book(&self) -> (&[u8], usize) {
        (self.journal.book(), self.journal.written().len())
    }
}
