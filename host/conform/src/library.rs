//! The proved library as a subject, through the C interface itself, with guards around what it is
//! lent: a store outside the lent memory is seen.

use hislip::sys;
use reference::{Counted, Deadline, Fresh, Readings, Reply, Row, Single, Size, Subject, Watch};

const GUARD: usize = 8;
const GUARD_WORD: u64 = 0x5afe_5afe_5afe_5afe;

#[derive(Clone)]
pub struct Library {
    words: Vec<u64>,
    strings: Vec<u8>,
}

impl Library {
    fn lent(&mut self) -> (*mut u64, *mut u8) {
        let words = self.words[GUARD..].as_mut_ptr();
        let strings = self.strings[GUARD..].as_mut_ptr();
        (words, strings)
    }

    /// The same for a question.
    fn shown(&self) -> (*const u64, *const u8) {
        (self.words[GUARD..].as_ptr(), self.strings[GUARD..].as_ptr())
    }

    /// A fresh server, whatever the memory held.
    fn start(&mut self, fresh: Fresh) {
        let (words, strings) = self.lent();
        unsafe { sys::hislip_new(words, strings, fresh.vendor, fresh.prefers as u8) };
    }
}

fn done(done: sys::hislip_done) -> Reply {
    Reply {
        refusal: done.refusal,
        output: done.output,
        ..Reply::default()
    }
}

// SAFETY of all calls: the lent memory has the lengths that the library asks for, between guards;
// inputs and outputs are slices that Rust keeps apart; the borrow of `self` keeps calls one after another.
impl Subject for Library {
    fn new(fresh: Fresh) -> Library {
        let (words, strings) = unsafe { (sys::hislip_words(), sys::hislip_string_bytes()) };
        let mut library = Library {
            words: vec![GUARD_WORD; words as usize + 2 * GUARD],
            strings: vec![GUARD_WORD as u8; strings as usize + 2 * GUARD],
        };
        library.start(fresh);
        library
    }

    fn open(&mut self, connection: u32) -> Reply {
        let (words, strings) = self.lent();
        done(unsafe { sys::hislip_open(words, strings, connection) })
    }

    fn deliver(&mut self, connection: u32, bytes: &[u8], out: &mut [u8]) -> Reply {
        let (words, strings) = self.lent();
        let (shown, len) = (bytes.as_ptr(), bytes.len());
        let (out, out_len) = (out.as_mut_ptr(), out.len());
        let delivery =
            unsafe { sys::hislip_deliver(words, strings, connection, shown, len, out, out_len) };
        Reply {
            refusal: delivery.refusal,
            outcome: delivery.outcome,
            session: delivery.session,
            taken: delivery.taken,
            output: delivery.output,
            missing: delivery.missing,
            ..Reply::default()
        }
    }

    fn cut(&mut self, connection: u32, out: &mut [u8]) -> Reply {
        let (words, strings) = self.lent();
        done(unsafe { sys::hislip_cut(words, strings, connection, out.as_mut_ptr(), out.len()) })
    }

    fn clock(&mut self, milliseconds: u64, out: &mut [u8]) -> Reply {
        let (words, strings) = self.lent();
        let (out, out_len) = (out.as_mut_ptr(), out.len());
        done(unsafe { sys::hislip_clock(words, strings, milliseconds, out, out_len) })
    }

    fn answer(
        &mut self,
        session: u32,
        payload: &[u8],
        end: u8,
        shown: &[u8],
        out: &mut [u8],
    ) -> Reply {
        let (words, strings) = self.lent();
        let answered = unsafe {
            sys::hislip_answer(
                words,
                strings,
                session,
                payload.as_ptr(),
                payload.len(),
                end,
                shown.as_ptr(),
                shown.len(),
                out.as_mut_ptr(),
                out.len(),
            )
        };
        Reply {
            refusal: answered.refusal,
            withheld: answered.withheld,
            output: answered.output,
            ..Reply::default()
        }
    }

    fn status(&mut self, status: u8) {
        let (words, strings) = self.lent();
        unsafe { sys::hislip_status(words, strings, status) };
    }

    fn watch(&mut self, session: u32, watch: Watch) -> Reply {
        let (words, strings) = self.lent();
        done(unsafe {
            match watch {
                Watch::Off => sys::hislip_watch_off(words, strings, session),
                Watch::Above { limit } => sys::hislip_watch_above(words, strings, session, limit.0),
                Watch::Outside { low, high } => {
                    sys::hislip_watch_outside(words, strings, session, low.0, high.0)
                }
            }
        })
    }

    fn patterns(&mut self, text: &[u8]) -> Reply {
        let (words, strings) = self.lent();
        let told = unsafe { sys::hislip_patterns(words, strings, text.as_ptr(), text.len()) };
        Reply {
            refusal: told.refusal,
            pattern: told.pattern,
            place: told.place,
            ..Reply::default()
        }
    }

    fn deadline(&self) -> Deadline {
        let (words, strings) = self.shown();
        let told = unsafe { sys::hislip_deadline(words, strings) };
        Deadline {
            waiting: told.waiting,
            deadline: told.deadline,
        }
    }

    fn client_size(&self, session: u32) -> Size {
        let (words, strings) = self.shown();
        let told = unsafe { sys::hislip_client_size(words, strings, session) };
        Size {
            refusal: told.refusal,
            size: told.size,
        }
    }

    /// The list itself is lent, so that a store beside its rows is seen.
    fn holders(&self, rows: &mut [Row]) -> Counted {
        const { assert!(size_of::<Row>() == size_of::<sys::hislip_row>()) };
        let (words, strings) = self.shown();
        let (lent, length) = (rows.as_mut_ptr().cast(), rows.len());
        let told = unsafe { sys::hislip_holders(words, strings, lent, length) };
        Counted {
            refusal: told.refusal,
            rows: told.rows,
        }
    }

    fn readings(&self, session: u32) -> Readings {
        let (words, strings) = self.shown();
        let told = unsafe { sys::hislip_readings(words, strings, session) };
        Readings {
            refusal: told.refusal,
            seen: told.seen,
            last: Single(told.last),
            lowest: Single(told.lowest),
            highest: Single(told.highest),
        }
    }

    fn fork(&self) -> Box<dyn Subject> {
        Box::new(self.clone())
    }

    /// All lent memory, and the guards around it, which never change.
    fn memory(&self, image: &mut Vec<u8>) {
        image.clear();
        for word in &self.words {
            image.extend_from_slice(&word.to_le_bytes());
        }
        image.extend_from_slice(&self.strings);
    }

    fn intact(&self) -> bool {
        let ends = |length: usize| (0..GUARD).chain(length - GUARD..length);
        ends(self.words.len()).all(|place| self.words[place] == GUARD_WORD)
            && ends(self.strings.len()).all(|place| self.strings[place] == GUARD_WORD as u8)
    }
}

#[cfg(test)]
mod tests {
    use super::{Library, GUARD};
    use reference::{Fresh, Subject};

    #[test]
    fn a_fresh_server_does_not_show_what_its_memory_held() {
        let images = [0, u64::MAX, 0x0123_4567_89ab_cdef].map(|word: u64| {
            let mut library = Library::new(Fresh::BENCH);
            let (words, strings) = (library.words.len(), library.strings.len());
            library.words[GUARD..words - GUARD].fill(word);
            library.strings[GUARD..strings - GUARD].fill(word as u8);
            library.start(Fresh::BENCH);
            let mut image = Vec::new();
            library.memory(&mut image);
            image
        });
        assert_eq!(images[0], images[1]);
        assert_eq!(images[0], images[2]);
    }

    #[test]
    fn a_store_beside_the_lent_memory_is_seen() {
        let library = Library::new(Fresh::BENCH);
        assert!(library.intact());
        let last = library.words.len() - 1;
        for place in [0, GUARD - 1, last - GUARD + 1, last] {
            let mut wrong = library.clone();
            wrong.words[place] ^= 1;
            assert!(!wrong.intact(), "word {place}");
        }
        let mut wrong = library.clone();
        wrong.strings[GUARD - 1] ^= 1;
        assert!(!wrong.intact());
    }
}
