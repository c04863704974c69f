//! The calls that keep a journal beside the reference: after every event of a random list the same answer, the
//! same word for the entry, the same output, words and book, every byte of each; in books of many lengths,
//! open, full, closed and begun again, and with any bits in the writer's words.

use conform::hostile::Author;
use conform::kept::{closed, Closed, Keeper};
use conform::numbers::Numbers;
use conform::watch::LONGEST;
use hislip::sys::journal::*;
use reference::journal::keep::{keep, Book};
use reference::journal::{Kept, Writer};
use reference::verifier::{judge, Verdict};
use reference::{Event, Fresh, Reply, Server, Subject};

const GUARD: u8 = 0xa5;
/// So many bytes of the book's memory before and after the book itself.
const BESIDE: usize = 64;

/// The library, with a journal.
struct Library {
    keeper: Keeper,
    /// The book, between bytes that are nobody's.
    memory: Vec<u8>,
}

impl Library {
    fn new(fresh: Fresh, length: usize) -> Library {
        Library {
            keeper: Keeper::new(fresh),
            memory: vec![GUARD; length + 2 * BESIDE],
        }
    }

    fn book(&mut self) -> (&mut Keeper, &mut [u8]) {
        let end = self.memory.len() - BESIDE;
        (&mut self.keeper, &mut self.memory[BESIDE..end])
    }
}

/// The reference, with a journal in memory of the same kind.
struct Kin {
    server: Server,
    writer: Writer,
    memory: Vec<u8>,
}

impl Kin {
    fn book(&mut self) -> (&mut Writer, &mut [u8]) {
        let end = self.memory.len() - BESIDE;
        (&mut self.writer, &mut self.memory[BESIDE..end])
    }

    fn words(&self) -> [u64; 4] {
        let Writer {
            written,
            last,
            count,
            closed,
        } = self.writer;
        [written, last, count, closed]
    }
}

/// How often each word for an entry was told; how many watches and lists were taken, and refused.
#[derive(Debug, Default)]
struct Told {
    kept: [usize; 3],
    watches: [usize; 2],
    lists: [usize; 2],
}

impl Told {
    fn event(&mut self, event: &Event, refusal: u64) {
        let refused = usize::from(refusal != 0);
        match event {
            Event::Watch { .. } => self.watches[refused] += 1,
            Event::Patterns { .. } => self.lists[refused] += 1,
            _ => {}
        }
    }

    fn add(&mut self, other: &Told) {
        let counts = other.kept.iter().chain(&other.watches).chain(&other.lists);
        let sums = self.kept.iter_mut().chain(&mut self.watches);
        for (sum, count) in sums.chain(&mut self.lists).zip(counts) {
            *sum += count;
        }
    }
}

struct Both {
    library: Library,
    kin: Kin,
    told: Told,
}

impl Both {
    fn new(fresh: Fresh, length: usize) -> Both {
        let library = Library::new(fresh, length);
        let kin = Kin {
            server: <Server as Subject>::new(fresh),
            writer: Writer {
                written: 7,
                last: 7,
                count: 7,
                closed: 7,
            },
            memory: library.memory.clone(),
        };
        Both {
            library,
            kin,
            told: Told::default(),
        }
    }

    fn same(&mut self, what: &str, kept: u64, kept_too: Kept) {
        assert_eq!(kept, kept_too as u64, "{what}");
        assert_eq!(self.library.keeper.journal, self.kin.words(), "{what}");
        assert!(self.library.memory == self.kin.memory, "{what}: the books");
        self.told.kept[kept as usize] += 1;
    }

    fn begin(&mut self) {
        let (writer, book) = self.kin.book();
        let kept = writer.begin(book);
        let (keeper, book) = self.library.book();
        let told = keeper.begin(book);
        self.same("a journal is begun", told, kept);
    }

    fn close(&mut self) {
        let (writer, book) = self.kin.book();
        let kept = writer.close(book);
        let (keeper, book) = self.library.book();
        let told = keeper.close(book);
        self.same("a journal is closed", told, kept);
    }

    /// Any bits in the writer's words; a place in the book more often than chance has it.
    fn scramble(&mut self, numbers: &mut Numbers) {
        let length = self.kin.memory.len();
        let mut word = || match numbers.below(4) {
            0 => 0,
            1 => numbers.below(length) as u64,
            _ => numbers.any(),
        };
        let words = [word(), word(), word(), word()];
        self.library.keeper.journal = words;
        let [written, last, count, closed] = words;
        self.kin.writer = Writer {
            written,
            last,
            count,
            closed,
        };
    }

    fn event(&mut self, event: &Event) -> Reply {
        let mut out = vec![GUARD; LONGEST];
        let mut out_too = out.clone();
        let room = event.room();
        let (keeper, book) = self.library.book();
        let (reply, kept) = keeper.keep(event, &mut out[..room], book);
        let end = self.kin.memory.len() - BESIDE;
        let mut book = Book {
            writer: &mut self.kin.writer,
            bytes: &mut self.kin.memory[BESIDE..end],
        };
        let server: &mut dyn Subject = &mut self.kin.server;
        let (reply_too, kept_too) = keep(server, event, &mut out_too[..room], &mut book);
        assert_eq!(reply, reply_too, "{event:?}");
        assert!(out == out_too, "{event:?}: the output");
        self.same(&format!("{event:?}"), kept, kept_too);
        self.told.event(event, reply.refusal);
        reply
    }
}

/// A list of a seed; what befalls the journal beside the events is by the same seed.
fn play(seed: u64, told: &mut Told) {
    let mut numbers = Numbers::new(seed ^ 0x6a6f_7572);
    let mut author = Author::new(seed);
    let length = numbers.pick(&[0, 11, 12, 40, 600, 3000, 20_000, 200_000]);
    let mut both = Both::new(author.fresh, length);
    both.begin();
    for _ in 0..author.length {
        match numbers.below(200) {
            0 => both.close(),
            1..=3 => both.begin(),
            4 => both.scramble(&mut numbers),
            _ => {}
        }
        let event = author.event();
        let reply = both.event(&event);
        author.learn(&event, &reply);
    }
    both.close();
    told.add(&both.told);
}

#[test]
fn kept_calls_are_the_references() {
    let mut told = Told::default();
    for seed in 1..=400 {
        play(seed, &mut told);
    }
    assert!(told.kept.iter().all(|count| *count > 1000), "{told:?}");
    let settings = [told.watches, told.lists].concat();
    assert!(settings.iter().all(|count| *count > 100), "{told:?}");
}

/// The journal of a list, closed at its end and at any place before, is accepted by the reference's verifier;
/// among the entries are many of each of the ten events.
#[test]
fn what_is_kept_and_closed_is_accepted() {
    let mut numbers = Numbers::new(0x6163_6365);
    let mut tags = [0; 10];
    for seed in 1..=200 {
        let length = Author::new(seed).length;
        for ended in [length, numbers.below(length)] {
            let Closed {
                fresh,
                book,
                entries,
            } = closed(seed, 0, ended);
            assert_eq!(judge(fresh, &book), Verdict::Accepted { entries });
            forward(&book)
                .iter()
                .for_each(|(body, _)| tags[usize::from(book[*body])] += 1);
        }
    }
    assert!(tags.iter().all(|count| *count > 200), "{tags:?}");
}

/// Both readers of the library, from place to place, on a book that it closed, and on every first part of it.
#[test]
fn the_readers_are_the_references() {
    let mut author = Author::new(77);
    let fresh = author.fresh;
    let mut both = Both::new(fresh, 100_000);
    both.begin();
    for _ in 0..60 {
        let event = author.event();
        let reply = both.event(&event);
        author.learn(&event, &reply);
    }
    both.close();
    let written = both.library.keeper.journal[0] as usize;
    let book = &both.library.memory[BESIDE..BESIDE + written];
    let entries = forward(book);
    assert_eq!(entries.len() as u64, both.library.keeper.journal[2]);
    let count = both.library.keeper.journal[2];
    assert_eq!(judge(fresh, book), Verdict::Accepted { entries: count });
    let mut backwards = backward(book);
    backwards.reverse();
    assert_eq!(entries, backwards);
    for length in 0..written {
        let whole = entries
            .iter()
            .take_while(|(at, size)| at + size + 8 <= length);
        assert_eq!(forward(&book[..length]), whole.copied().collect::<Vec<_>>());
    }
}

fn forward(book: &[u8]) -> Vec<(usize, usize)> {
    let at = |place| unsafe { hislip_journal_forward(book.as_ptr(), book.len(), place) };
    walk(at, 0)
}

fn backward(book: &[u8]) -> Vec<(usize, usize)> {
    let at = |place| unsafe { hislip_journal_backward(book.as_ptr(), book.len(), place) };
    walk(at, book.len() as u64 - 12)
}

fn walk(at: impl Fn(u64) -> hislip_entry, mut place: u64) -> Vec<(usize, usize)> {
    let mut found = Vec::new();
    loop {
        let entry = at(place);
        if entry.found == 0 {
            return found;
        }
        found.push((entry.body as usize, entry.length as usize));
        place = entry.next;
    }
}
