//! The two sides. Each pays one call that is not inlined, with the same numbers in and out.

use hislip::sys;
use hislip::sys::journal::hislip_journal_forward;
use ordinary::journal;
use reference::{Mode, Reply, Watch};

/// Which sum the ordinary server reads an entry with; the library has one.
#[derive(Clone, Copy, PartialEq, Eq)]
pub enum Sum {
    /// A look in one table for each byte.
    ByBytes,
    /// What its journal has, eight bytes a step.
    ByEights,
}

pub trait Contender {
    fn new() -> Self;
    fn open(&mut self, connection: u32);
    fn deliver(&mut self, connection: u32, bytes: &[u8], out: &mut [u8]) -> Reply;
    fn answer(&mut self, session: u32, payload: &[u8], end: bool, out: &mut [u8]) -> Reply;
    /// A watch that the readings of the workloads do not trip.
    fn watch(&mut self, session: u32) -> Reply;
    /// The list of allowed commands.
    fn allow(&mut self, text: &[u8]) -> Reply;
    /// Reads the entry that bytes begin with; its sum is taken.
    fn read(bytes: &[u8], sum: Sum) -> Reply;
    /// The book, whole, and how much of it is written; none if no journal is kept.
    fn book(&self) -> (&[u8], usize) {
        (&[], 0)
    }
}

/// "AA".
const VENDOR: u16 = 0x4141;
/// No reading is beyond these.
pub const LOW: f32 = -10.0;
pub const HIGH: f32 = 10.0;

pub struct Library {
    words: Vec<u64>,
    strings: Vec<u8>,
}

impl Library {
    pub fn memory(&mut self) -> (*mut u64, *mut u8) {
        (self.words.as_mut_ptr(), self.strings.as_mut_ptr())
    }
}

/// What is told of an entry that was found: where the next one begins, and how long its body is.
fn found(length: u64, next: u64) -> Reply {
    Reply {
        taken: next,
        missing: length,
        ..Reply::default()
    }
}

// SAFETY of the calls: the memory has the lengths the library asks for; slices do not overlap.
impl Contender for Library {
    fn new() -> Library {
        let (words, strings) = unsafe { (sys::hislip_words(), sys::hislip_string_bytes()) };
        let mut library = Library {
            words: vec![0; words as usize],
            strings: vec![0; strings as usize],
        };
        let (words, strings) = (library.words.as_mut_ptr(), library.strings.as_mut_ptr());
        unsafe { sys::hislip_new(words, strings, VENDOR, Mode::Synchronized as u8) };
        library
    }

    fn open(&mut self, connection: u32) {
        let (words, strings) = (self.words.as_mut_ptr(), self.strings.as_mut_ptr());
        unsafe { sys::hislip_open(words, strings, connection) };
    }

    #[inline(always)]
    fn deliver(&mut self, connection: u32, bytes: &[u8], out: &mut [u8]) -> Reply {
        let (words, strings) = (self.words.as_mut_ptr(), self.strings.as_mut_ptr());
        let (shown, len) = (bytes.as_ptr(), bytes.len());
        let (out, out_len) = (out.as_mut_ptr(), out.len());
        let told =
            unsafe { sys::hislip_deliver(words, strings, connection, shown, len, out, out_len) };
        Reply {
            refusal: told.refusal,
            outcome: told.outcome,
            session: told.session,
            taken: told.taken,
            output: told.output,
            missing: told.missing,
            ..Reply::default()
        }
    }

    #[inline(always)]
    fn answer(&mut self, session: u32, payload: &[u8], end: bool, out: &mut [u8]) -> Reply {
        let end = end.into();
        let (words, strings) = (self.words.as_mut_ptr(), self.strings.as_mut_ptr());
        let (bytes, len) = (payload.as_ptr(), payload.len());
        let (out, out_len) = (out.as_mut_ptr(), out.len());
        let shown: &[u8] = &[];
        let (unread, none) = (shown.as_ptr(), shown.len());
        let answered = unsafe {
            sys::hislip_answer(
                words, strings, session, bytes, len, end, unread, none, out, out_len,
            )
        };
        Reply {
            refusal: answered.refusal,
            output: answered.output,
            withheld: answered.withheld,
            ..Reply::default()
        }
    }

    fn watch(&mut self, session: u32) -> Reply {
        let (words, strings) = (self.words.as_mut_ptr(), self.strings.as_mut_ptr());
        let told = unsafe { sys::hislip_watch_outside(words, strings, session, LOW, HIGH) };
        Reply::refused(told.refusal)
    }

    fn allow(&mut self, text: &[u8]) -> Reply {
        let (words, strings) = (self.words.as_mut_ptr(), self.strings.as_mut_ptr());
        let told = unsafe { sys::hislip_patterns(words, strings, text.as_ptr(), text.len()) };
        Reply {
            pattern: told.pattern,
            place: told.place,
            ..Reply::refused(told.refusal)
        }
    }

    #[inline(always)]
    fn read(bytes: &[u8], _: Sum) -> Reply {
        let entry = unsafe { hislip_journal_forward(bytes.as_ptr(), bytes.len(), 0) };
        match entry.found {
            0 => Reply::refused(1),
            _ => found(entry.length, entry.next),
        }
    }
}

/// Its calls are never inlined either.
pub struct Ordinary(pub Box<ordinary::Server>);

impl Contender for Ordinary {
    fn new() -> Ordinary {
        Ordinary(Box::new(ordinary::Server::new(VENDOR, Mode::Synchronized)))
    }

    fn open(&mut self, connection: u32) {
        self.0.open(connection);
    }

    #[inline(always)]
    fn deliver(&mut self, connection: u32, bytes: &[u8], out: &mut [u8]) -> Reply {
        self.0.deliver(connection, bytes, out)
    }

    #[inline(always)]
    fn answer(&mut self, session: u32, payload: &[u8], end: bool, out: &mut [u8]) -> Reply {
        self.0.answer(session, payload, end.into(), &[], out)
    }

    fn watch(&mut self, session: u32) -> Reply {
        self.0.watch(session, Watch::outside(LOW, HIGH))
    }

    fn allow(&mut self, text: &[u8]) -> Reply {
        self.0.patterns(text)
    }

    #[inline(always)]
    fn read(bytes: &[u8], sum: Sum) -> Reply {
        let entry = match sum {
            Sum::ByBytes => journal::forward_by_bytes(bytes, 0),
            Sum::ByEights => journal::forward(bytes, 0),
        };
        match entry {
            None => Reply::refused(1),
            Some(entry) => found(entry.length as u64, entry.next as u64),
        }
    }
}
