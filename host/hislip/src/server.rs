//! One server and its memory.

use crate::frame::Frames;
use crate::holder::Holder;
use crate::mode::Mode;
use crate::numbers::{Connection, SessionId};
use crate::outcome::{Answered, Delivery, Outcome};
use crate::refusal::Refusal;
use crate::sizes::{OUTPUT, SESSIONS};
use crate::sys;

/// Lock requests that wait, as [`Server::deadline`] tells it.
#[derive(Clone, Copy, Debug, PartialEq, Eq, Hash)]
pub struct Deadline {
    /// How many wait, 1 to [`crate::SESSIONS`].
    pub waiting: usize,
    /// The reading of the clock at which the first of them runs out of time.
    pub milliseconds: u64,
}

/// Owns the words, the strings and the output buffer. A clone is a second server in the same state.
///
/// Every pointer passed on is a slice's and so never null, also of an empty one, as the C interface
/// wants it.
///
/// # Panics
///
/// The methods panic if the archive answers what its interface does not have: a refusal above 12, an
/// outcome above 6, a SessionID of more than 16 bits, more output than the buffer has, or more words
/// than can be counted. Each is excluded by proof, so a panic means that another archive is linked. No
/// input makes them panic.
#[derive(Clone, Debug)]
pub struct Server {
    words: Box<[u64]>,
    strings: Box<[u8]>,
    out: Box<[u8]>,
}

impl Server {
    /// A fresh server of this two-letter vendor that prefers this mode, clock 0 and status byte 0.
    ///
    /// # Panics
    ///
    /// As [`Server`] says: never, with the proved archive.
    pub fn new(vendor: [u8; 2], prefers: Mode) -> Server {
        Server::with_output(vendor, prefers, vec![0; OUTPUT])
    }

    /// The same with an output buffer of the caller's; under [`OUTPUT`] bytes, the events that
    /// may send are refused.
    ///
    /// # Panics
    ///
    /// As [`Server`] says: never, with the proved archive.
    pub fn with_output(vendor: [u8; 2], prefers: Mode, out: Vec<u8>) -> Server {
        // SAFETY: both only return a number.
        let (words, strings) = unsafe { (sys::hislip_words(), sys::hislip_string_bytes()) };
        let length = |number: u64| usize::try_from(number).expect("some hundred");
        let mut server = Server {
            words: vec![0; length(words)].into(),
            strings: vec![0; length(strings)].into(),
            out: out.into(),
        };
        let (words, strings) = server.memory();
        let (vendor, overlap) = (u16::from_be_bytes(vendor), prefers.number());
        // SAFETY: both have the lengths the library asked for and overlap nothing.
        unsafe { sys::hislip_new(words, strings, vendor, overlap) };
        server
    }

    /// A connection opens. Refused: a number above 63, or already open.
    ///
    /// # Panics
    ///
    /// As [`Server`] says: never, with the proved archive.
    pub fn open(&mut self, connection: impl Into<Connection>) -> Result<(), Refusal> {
        let (words, strings) = self.memory();
        // SAFETY: the memory is the one `hislip_new` wrote; `&mut self` keeps other calls away.
        let done = unsafe { sys::hislip_open(words, strings, connection.into().number()) };
        Refusal::check(done.refusal)
    }

    /// All unread bytes of a connection; at most one message is taken. Deliver again while bytes are
    /// taken and some are left. Refused: a number above 63, or not open.
    ///
    /// # Panics
    ///
    /// As [`Server`] says: never, with the proved archive.
    pub fn deliver(
        &mut self,
        connection: impl Into<Connection>,
        bytes: &[u8],
    ) -> Result<Delivery<'_>, Refusal> {
        let connection = connection.into().number();
        let (words, strings) = self.memory();
        let (out, out_len) = (self.out.as_mut_ptr(), self.out.len());
        // SAFETY: as for `open`; `bytes` is borrowed apart from `self`, so it overlaps nothing.
        let done = unsafe {
            sys::hislip_deliver(
                words,
                strings,
                connection,
                bytes.as_ptr(),
                bytes.len(),
                out,
                out_len,
            )
        };
        Refusal::check(done.refusal)?;
        Ok(Delivery {
            outcome: Outcome::of(done.outcome, done.session),
            taken: done.taken as usize,
            missing: done.missing,
            frames: self.frames(done.output),
        })
    }

    /// A connection is cut, and its session closes. The frames are lock answers for others. Refused: a
    /// number above 63, or not open.
    ///
    /// # Panics
    ///
    /// As [`Server`] says: never, with the proved archive.
    pub fn cut(&mut self, connection: impl Into<Connection>) -> Result<Frames<'_>, Refusal> {
        let connection = connection.into().number();
        let (words, strings) = self.memory();
        let (out, out_len) = (self.out.as_mut_ptr(), self.out.len());
        // SAFETY: as for `open`, and `out` is the server's own.
        let done = unsafe { sys::hislip_cut(words, strings, connection, out, out_len) };
        self.sent(done)
    }

    /// The clock reads so many milliseconds. The frames answer lock requests whose time is over.
    /// Refused: below the last reading, or above [`crate::CLOCK_MAX`].
    ///
    /// # Panics
    ///
    /// As [`Server`] says: never, with the proved archive.
    pub fn clock(&mut self, milliseconds: u64) -> Result<Frames<'_>, Refusal> {
        let (words, strings) = self.memory();
        let (out, out_len) = (self.out.as_mut_ptr(), self.out.len());
        // SAFETY: as for `cut`.
        let done = unsafe { sys::hislip_clock(words, strings, milliseconds, out, out_len) };
        self.sent(done)
    }

    /// The instrument answers a session, with or without END; the frame has the MessageID of the
    /// question, in overlap mode the session's count of answers. `shown` is all unread bytes of the
    /// session's synchronous channel: in synchronized mode the end of an answer is withheld if they begin
    /// with Data, DataEND or Trigger. Refused: no live session of that number, nothing asked (in overlap
    /// mode: half-open or in a device clear), or too long.
    ///
    /// # Panics
    ///
    /// As [`Server`] says: never, with the proved archive.
    pub fn answer(
        &mut self,
        session: impl Into<SessionId>,
        payload: &[u8],
        end: bool,
        shown: &[u8],
    ) -> Result<Answered<'_>, Refusal> {
        let (words, strings) = self.memory();
        let (out, out_len) = (self.out.as_mut_ptr(), self.out.len());
        let (bytes, len) = (payload.as_ptr(), payload.len());
        // SAFETY: as for `deliver`.
        let done = unsafe {
            sys::hislip_answer(
                words,
                strings,
                session.into().into(),
                bytes,
                len,
                end.into(),
                shown.as_ptr(),
                shown.len(),
                out,
                out_len,
            )
        };
        Refusal::check(done.refusal)?;
        let frames = self.frames(done.output);
        Ok(match done.withheld {
            0 => Answered::Sent(frames),
            _ => Answered::Withheld(frames),
        })
    }

    /// The instrument's status byte changes. Never refused.
    pub fn status(&mut self, status: u8) {
        let (words, strings) = self.memory();
        // SAFETY: as for `open`.
        unsafe { sys::hislip_status(words, strings, status) };
    }

    /// How many lock requests wait and the earliest of their deadlines; None if none waits. A reading
    /// of the clock before it answers nobody, one at or past it answers at least one, so a host with
    /// nothing else to do may sleep until then. Holds until the next event; asking changes nothing.
    ///
    /// ```
    /// let server = hislip::Server::new(*b"AA", hislip::Mode::Synchronized);
    /// assert_eq!(server.deadline(), None);
    /// ```
    pub fn deadline(&self) -> Option<Deadline> {
        let (words, strings) = self.shown();
        // SAFETY: both are the memory that `hislip_new` wrote, and `&self` keeps writers away; the
        // call only reads.
        let told = unsafe { sys::hislip_deadline(words, strings) };
        (told.waiting > 0).then_some(Deadline {
            waiting: told.waiting as usize,
            milliseconds: told.deadline,
        })
    }

    /// The largest payload that a session's client takes: an answer may have so many bytes and no more
    /// than [`crate::PAYLOAD`]. Any 64-bit number, as the client said it. Refused: no live session of
    /// that number. Asking changes nothing.
    ///
    /// # Panics
    ///
    /// As [`Server`] says: never, with the proved archive.
    pub fn client_size(&self, session: impl Into<SessionId>) -> Result<u64, Refusal> {
        let (words, strings) = self.shown();
        // SAFETY: as for `deadline`.
        let told = unsafe { sys::hislip_client_size(words, strings, session.into().into()) };
        Refusal::check(told.refusal).map(|()| told.size)
    }

    /// The sessions that hold a lock, by ascending SessionID: which locks, the reading of the clock at the
    /// last grant to each, and how many locks were granted to it since it opened. A release that waits for
    /// its message has not freed its lock yet. Asking changes nothing.
    ///
    /// ```
    /// let server = hislip::Server::new(*b"AA", hislip::Mode::Synchronized);
    /// assert!(server.holders().is_empty());
    /// ```
    ///
    /// # Panics
    ///
    /// As [`Server`] says: never, with the proved archive.
    pub fn holders(&self) -> Vec<Holder> {
        let mut rows = [sys::hislip_row::default(); SESSIONS];
        let (words, strings) = self.shown();
        // SAFETY: as for `deadline`; the rows are this function's own.
        let told = unsafe { sys::hislip_holders(words, strings, rows.as_mut_ptr(), rows.len()) };
        Refusal::check(told.refusal).expect("a row for every session");
        let holding = &rows[..told.rows as usize];
        holding.iter().map(Holder::of).collect()
    }

    pub(crate) fn memory(&mut self) -> (*mut u64, *mut u8) {
        (self.words.as_mut_ptr(), self.strings.as_mut_ptr())
    }

    /// The same for a question.
    pub(crate) fn shown(&self) -> (*const u64, *const u8) {
        (self.words.as_ptr(), self.strings.as_ptr())
    }

    pub(crate) fn output(&mut self) -> (*mut u8, usize) {
        (self.out.as_mut_ptr(), self.out.len())
    }

    fn sent(&self, done: sys::hislip_done) -> Result<Frames<'_>, Refusal> {
        Refusal::check(done.refusal)?;
        Ok(self.frames(done.output))
    }

    pub(crate) fn frames(&self, output: u64) -> Frames<'_> {
        Frames::new(&self.out[..output as usize])
    }
}
