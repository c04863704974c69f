//! Allowed commands: what the host sets for all sessions, and what is wrong with a list.

use std::error::Error;
use std::fmt;

use crate::journal::{Journal, Kept};
use crate::refusal::Refusal;
use crate::server::Server;
use crate::sizes::{PATTERN, PATTERNS};
use crate::sys;

/// Why a list of patterns was refused. Printed, a bad pattern has a caret under the place where it goes
/// wrong.
#[derive(Clone, Debug, PartialEq, Eq, Hash)]
pub enum BadList {
    /// A text is no pattern.
    Pattern {
        /// Which one, from 0.
        number: usize,
        /// Its first byte that no pattern could have there, from 0; its length if it stops short;
        /// [`PATTERN`] if it is longer and good so far.
        place: usize,
        /// The text as it was given.
        pattern: Vec<u8>,
    },
    /// There are more than [`PATTERNS`].
    TooMany,
}

impl BadList {
    /// The refusal in the C interface.
    pub fn refusal(&self) -> Refusal {
        match self {
            BadList::Pattern { .. } => Refusal::BadPattern,
            BadList::TooMany => Refusal::TooManyPatterns,
        }
    }

    /// A pattern with a caret under its bad place, in two lines; None if no pattern is bad. Bytes that
    /// cannot be printed stand as a question mark in a box.
    pub fn caret(&self) -> Option<String> {
        match self {
            BadList::Pattern { place, pattern, .. } => {
                let shown = pattern.iter().map(|byte| printable(*byte));
                let (line, before) = (shown.collect::<String>(), " ".repeat(*place));
                Some(format!("{line}\n{before}^"))
            }
            BadList::TooMany => None,
        }
    }
}

/// One character for one byte, so that a caret stands under its byte.
fn printable(byte: u8) -> char {
    match byte {
        b' '..=b'~' => byte.into(),
        _ => char::REPLACEMENT_CHARACTER,
    }
}

impl fmt::Display for BadList {
    fn fmt(&self, f: &mut fmt::Formatter<'_>) -> fmt::Result {
        let number = self.refusal().number();
        match self {
            BadList::TooMany => write!(f, "refusal {number}: above {PATTERNS} command patterns"),
            BadList::Pattern {
                number: which,
                place,
                pattern,
            } => {
                let why = match *place {
                    PATTERN => format!("is longer than {PATTERN} bytes"),
                    place if place == pattern.len() => "stops short".into(),
                    place => format!("goes wrong at byte {place}"),
                };
                write!(f, "refusal {number}: command pattern {which} {why}")?;
                let caret = self.caret().unwrap_or_default();
                write!(f, "\n{caret}")
            }
        }
    }
}

impl Error for BadList {}

impl From<BadList> for Refusal {
    fn from(bad: BadList) -> Refusal {
        bad.refusal()
    }
}

impl Server {
    /// Sets the list of allowed commands, in place of the one before, for all sessions. A DataEND whose
    /// payload up to its first space, newline or end matches none of the patterns is then answered Error
    /// 128 and does not act. An empty list allows nothing; while no list was ever set, all is allowed.
    ///
    /// A refused list changes nothing: the one before stays.
    ///
    /// ```
    /// let mut server = hislip::Server::new(*b"AA", hislip::Mode::Synchronized);
    /// server.patterns(&["*IDN?", "MEASure[:VOLTage[:DC]]?"])?;
    /// let bad = server.patterns(&["*IDN?", "MEASure:VoLTage?"]).unwrap_err();
    /// let lines = [
    ///     "refusal 11: command pattern 1 goes wrong at byte 10",
    ///     "MEASure:VoLTage?",
    ///     "          ^",
    /// ];
    /// assert_eq!(bad.to_string(), lines.join("\n"));
    /// # Ok::<(), hislip::BadList>(())
    /// ```
    ///
    /// # Panics
    ///
    /// As [`Server`] says: never, with the proved archive.
    pub fn patterns<T: AsRef<[u8]>>(&mut self, list: &[T]) -> Result<(), BadList> {
        let text = text(list);
        let (words, strings) = self.memory();
        // SAFETY: as for `open`; the text is this function's own.
        let told = unsafe { sys::hislip_patterns(words, strings, text.as_ptr(), text.len()) };
        BadList::check(told, list)
    }

    /// As [`Server::patterns`], with an entry in a journal.
    ///
    /// # Panics
    ///
    /// As [`Server`] says: never, with the proved archive.
    pub fn keep_patterns<T: AsRef<[u8]>>(
        &mut self,
        list: &[T],
        journal: &mut Journal,
    ) -> (Result<(), BadList>, Kept) {
        let text = text(list);
        let (journal, book, length) = journal.lent();
        let (words, strings) = self.memory();
        let (at, size) = (text.as_ptr(), text.len());
        // SAFETY: as for `patterns`; the journal is borrowed apart from `self`.
        let told = unsafe {
            sys::journal::hislip_keep_patterns(words, strings, at, size, journal, book, length)
        };
        let listed = sys::hislip_listed {
            refusal: told.refusal,
            pattern: told.pattern,
            place: told.place,
        };
        (BadList::check(listed, list), Kept::of(told.kept))
    }
}

impl BadList {
    fn check<T: AsRef<[u8]>>(told: sys::hislip_listed, list: &[T]) -> Result<(), BadList> {
        match Refusal::check(told.refusal) {
            Ok(()) => Ok(()),
            Err(Refusal::BadPattern) => {
                let number = told.pattern as usize;
                Err(BadList::Pattern {
                    number,
                    place: told.place as usize,
                    pattern: list[number].as_ref().to_vec(),
                })
            }
            Err(_) => Err(BadList::TooMany),
        }
    }
}

/// The patterns of a list as the interface takes them: one a line.
fn text<T: AsRef<[u8]>>(list: &[T]) -> Vec<u8> {
    list.iter().flat_map(|one| line(one.as_ref())).collect()
}

/// A pattern with the newline that ends it. A newline inside it is as bad in any place as the byte 0, which
/// does not make two patterns of one.
fn line(pattern: &[u8]) -> impl Iterator<Item = u8> + '_ {
    let inside = |byte: &u8| if *byte == b'\n' { 0 } else { *byte };
    pattern.iter().map(inside).chain([b'\n'])
}
