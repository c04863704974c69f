//! The verdict over a book that comes in pieces: the same however it is cut.

use crate::journal::framing::{number, AROUND, BODY_LIMIT, MARK, TRAILER};
use crate::mode::Fresh;
use crate::verifier::{Fault, Place, Verdict};

pub struct Verifier {
    place: Place,
    /// The bytes of this place that have come; fewer than an entry's.
    held: Vec<u8>,
    /// What no further byte changes.
    decided: Option<Verdict>,
}

impl Verifier {
    pub fn new(fresh: Fresh) -> Verifier {
        Verifier {
            place: Place::first(fresh),
            held: Vec::with_capacity(BODY_LIMIT + AROUND),
            decided: None,
        }
    }

    pub fn feed(&mut self, mut piece: &[u8]) {
        while self.decided.is_none() && !piece.is_empty() {
            let wanted = self.wanted() - self.held.len();
            let (now, later) = piece.split_at(wanted.min(piece.len()));
            self.held.extend_from_slice(now);
            piece = later;
            self.look();
        }
    }

    /// How many bytes of this place are to be held before anything can be said: a number, then the entry that
    /// it is the length of, or the trailer and one byte more, which is its fault.
    fn wanted(&self) -> usize {
        match number(&self.held, 0) {
            None => MARK.len(),
            Some(_) if self.held.starts_with(&MARK) => TRAILER + 1,
            Some(length) => AROUND + length as usize,
        }
    }

    fn look(&mut self) {
        if self.held.starts_with(&MARK) {
            if self.held.len() > TRAILER {
                self.decided = Some(self.place.wrong(Fault::Trailer));
            }
            return;
        }
        let too_long = number(&self.held, 0).is_some_and(|length| length as usize > BODY_LIMIT);
        if too_long {
            self.decided = Some(self.place.wrong(Fault::Length));
        } else if self.held.len() >= AROUND && self.held.len() == self.wanted() {
            match self.place.pass(&self.held) {
                Ok(_) => self.held.clear(),
                Err(fault) => self.decided = Some(self.place.wrong(fault)),
            }
        }
    }

    /// The verdict, if the book ends here.
    pub fn verdict(&self) -> Verdict {
        match self.decided {
            Some(verdict) => verdict,
            None if self.held.starts_with(&MARK) => self.place.trailer(&self.held),
            None => self.place.wrong(Fault::Length),
        }
    }
}
