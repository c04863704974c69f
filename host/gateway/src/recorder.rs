//! The server, and, if one is wanted, a journal of its events on disk (docs/JOURNAL.md).
//!
//! An entry is in the file before a frame of its event is sent: a gateway that is killed loses no whole entry.
//! After an event that a program may have heard of (a message that acted, was answered with an Error or closed
//! its session, an answer of the instrument, lock answers) the file is also flushed to the disk, so that a power
//! cut loses none of these either. Openings, status changes, silent readings of the clock, and deliveries that
//! are held or want more bytes wait for the next flush.

use std::fs::File;
use std::ops::Deref;
use std::os::unix::fs::FileExt;
use std::path::{Path, PathBuf};

use hislip::{
    Answer, Answered, BadList, Delivery, Event, Frames, Journal, Kept, Mode, Outcome, Refusal,
    Server, SessionId, Watch,
};

/// Bytes of a journal before the next one is begun.
const ROOM: usize = 8 << 20;

/// The longest entry: 5,000 bytes of body and 12 beside it; and the closing trailer.
const LONGEST: usize = 5_012 + 12;

/// A server whose events may be kept. Questions are the server's own.
pub struct Recorder {
    server: Server,
    book: Option<Book>,
}

/// A journal and its file.
struct Book {
    journal: Journal,
    file: File,
    /// So many of the journal's bytes are in the file.
    saved: usize,
    path: PathBuf,
    /// How many journals were begun before this one.
    before: usize,
    /// What went wrong with the file, until it is told.
    trouble: Option<String>,
}

fn empty_journal() -> Journal {
    Journal::new(ROOM).expect("room for a closing trailer")
}

/// The file of a journal: the first has the name itself, the next ones a number behind it.
fn numbered(path: &Path, before: usize) -> PathBuf {
    match before {
        0 => path.into(),
        _ => {
            let mut name = path.as_os_str().to_owned();
            name.push(format!(".{before}"));
            name.into()
        }
    }
}

impl Book {
    fn new(path: PathBuf) -> std::io::Result<Book> {
        Ok(Book {
            journal: empty_journal(),
            file: File::create(&path)?,
            saved: 0,
            path,
            before: 0,
            trouble: None,
        })
    }

    /// Begins the next journal if the longest entry would not fit this one, so that no event is left out.
    fn make_room(&mut self) {
        if ROOM - self.journal.written().len() >= LONGEST {
            return;
        }
        self.close();
        self.before += 1;
        let begun = File::create(numbered(&self.path, self.before));
        match begun {
            Ok(file) => {
                self.file = file;
                self.journal = empty_journal();
                self.saved = 0;
            }
            Err(error) => self.trouble = Some(format!("journal {}: {error}", self.before)),
        }
    }

    /// Puts into the file what is not in it yet.
    fn save(&mut self, flush: bool) {
        let new = &self.journal.written()[self.saved..];
        let written = self.file.write_all_at(new, self.saved as u64);
        let written = written.and_then(|()| match flush {
            true => self.file.sync_data(),
            false => Ok(()),
        });
        match written {
            Ok(()) => self.saved = self.journal.written().len(),
            Err(error) => self.trouble = Some(format!("journal: {error}")),
        }
    }

    /// An event was done, and this became of its entry.
    fn has(&mut self, kept: Kept, flush: bool) {
        match kept {
            Kept::Written => self.save(flush),
            Kept::NoRoom | Kept::Closed => {
                self.trouble = Some("journal: an event is not kept".into())
            }
        }
    }

    fn close(&mut self) {
        if self.journal.close() == Kept::Written {
            self.save(true);
        }
    }
}

/// Whether a program may have heard of the event.
fn matters(answer: &Result<Answer, Refusal>) -> bool {
    match answer {
        Ok(Answer::Delivery(delivery)) => matches!(
            delivery.outcome,
            Outcome::ActedOn { .. } | Outcome::ErrorSent | Outcome::Closed { .. }
        ),
        Ok(Answer::Answered(_)) => true,
        Ok(Answer::Frames(frames)) => frames.clone().next().is_some(),
        Ok(Answer::Done) | Err(_) => false,
    }
}

impl Recorder {
    /// A fresh server; its events go to a journal in this file, if there is one.
    pub fn new(vendor: [u8; 2], prefers: Mode, path: Option<&Path>) -> std::io::Result<Recorder> {
        Ok(Recorder {
            server: Server::new(vendor, prefers),
            book: path.map(|path| Book::new(path.into())).transpose()?,
        })
    }

    /// What went wrong with the journal's file since it was last asked.
    pub fn trouble(&mut self) -> Option<String> {
        self.book.as_mut()?.trouble.take()
    }

    fn event(&mut self, event: Event) -> Result<Answer<'_>, Refusal> {
        let Some(book) = &mut self.book else {
            return self.server.apply(event);
        };
        book.make_room();
        let (answer, kept) = self.server.keep(event, &mut book.journal);
        book.has(kept, matters(&answer));
        answer
    }

    /// As [`Server::patterns`], kept.
    pub fn patterns(&mut self, list: &[Vec<u8>]) -> Result<(), BadList> {
        let Some(book) = &mut self.book else {
            return self.server.patterns(list);
        };
        book.make_room();
        let (set, kept) = self.server.keep_patterns(list, &mut book.journal);
        book.has(kept, true);
        set
    }

    /// As [`Server::watch`], kept.
    pub fn watch(&mut self, session: SessionId, watch: Watch) -> Result<(), Refusal> {
        self.event(Event::Watch { session, watch }).map(|_| ())
    }

    /// As [`Server::open`], kept.
    pub fn open(&mut self, connection: u32) -> Result<(), Refusal> {
        let connection = connection.into();
        self.event(Event::Open { connection }).map(|_| ())
    }

    /// As [`Server::deliver`], kept.
    pub fn deliver(&mut self, connection: u32, bytes: &[u8]) -> Result<Delivery<'_>, Refusal> {
        let connection = connection.into();
        match self.event(Event::Deliver { connection, bytes })? {
            Answer::Delivery(delivery) => Ok(delivery),
            _ => unreachable!("a delivery's answer"),
        }
    }

    /// As [`Server::cut`], kept.
    pub fn cut(&mut self, connection: u32) -> Result<Frames<'_>, Refusal> {
        let connection = connection.into();
        self.frames(Event::Cut { connection })
    }

    /// As [`Server::clock`], kept.
    pub fn clock(&mut self, milliseconds: u64) -> Result<Frames<'_>, Refusal> {
        self.frames(Event::Clock { milliseconds })
    }

    /// As [`Server::answer`], kept.
    pub fn answer(
        &mut self,
        session: SessionId,
        payload: &[u8],
        end: bool,
        shown: &[u8],
    ) -> Result<Answered<'_>, Refusal> {
        let event = Event::Answer {
            session,
            payload,
            end,
            shown,
        };
        match self.event(event)? {
            Answer::Answered(answered) => Ok(answered),
            _ => unreachable!("an answer's answer"),
        }
    }

    /// As [`Server::status`], kept.
    pub fn status(&mut self, status: u8) {
        let told = self.event(Event::Status { status });
        debug_assert!(told.is_ok(), "never refused");
    }

    fn frames(&mut self, event: Event) -> Result<Frames<'_>, Refusal> {
        match self.event(event)? {
            Answer::Frames(frames) => Ok(frames),
            _ => unreachable!("the answer to a cut or to a reading of the clock"),
        }
    }
}

/// For questions, which change nothing.
impl Deref for Recorder {
    type Target = Server;

    fn deref(&self) -> &Server {
        &self.server
    }
}

/// A gateway that ends in order closes its journal.
impl Drop for Recorder {
    fn drop(&mut self) {
        if let Some(book) = &mut self.book {
            book.close();
        }
    }
}
