//! Random lists, kept by the library and judged by both: the program `verify` says of each journal what the
//! reference's verifier says. Each is judged as it was closed, closed before its list's end, begun in the middle of
//! it, and damaged in many ways.
//!
//! `judged PROGRAM` ends at the first difference; the last line says how many verdicts were equal, and of which
//! kinds, each of which must have come often.

use conform::hostile::Author;
use conform::kept::{closed, Closed};
use conform::numbers::Numbers;
use reference::journal::framing::{entry, trailer};
use reference::journal::reader::{entries, Found};
use reference::verifier::{judge, program, Fault, Verdict};
use reference::Fresh;
use std::path::{Path, PathBuf};
use std::process::ExitCode;
use std::{env, fs, process};

const LISTS: u64 = 250;
const FAULTS: [Fault; 6] = [
    Fault::Length,
    Fault::Distance,
    Fault::Sum,
    Fault::Layout,
    Fault::Parcels,
    Fault::Trailer,
];
/// So many of each kind of verdict, and of each event among the entries of accepted journals.
const FLOOR: usize = 100;
/// Bytes of a journal's closing trailer.
const TRAILER: usize = 12;

/// What was said, by both.
#[derive(Default)]
struct Tally {
    /// Of a server that prefers synchronized mode, and overlap mode.
    accepted: [usize; 2],
    faults: [usize; 6],
    /// Entries of the undamaged journals, by tag.
    tags: [usize; 10],
}

impl Tally {
    fn verdict(&mut self, fresh: Fresh, verdict: Verdict) {
        match verdict {
            Verdict::Accepted { .. } => self.accepted[fresh.prefers as usize] += 1,
            Verdict::Wrong { fault, .. } => self.faults[fault as usize] += 1,
        }
    }

    fn often(&self) -> bool {
        let counts = self.accepted.iter().chain(&self.faults).chain(&self.tags);
        counts.copied().all(|count| count >= FLOOR)
    }

    fn print(&self) {
        let [synchronized, overlap] = self.accepted;
        let sum: usize = self.accepted.iter().chain(&self.faults).sum();
        let faults = FAULTS.iter().zip(self.faults);
        let faults: Vec<_> = faults.map(|(fault, n)| format!("{fault} {n}")).collect();
        println!("entries by tag: {:?}", self.tags);
        println!(
            "{sum} verdicts equal: accepted {synchronized} synchronized, {overlap} overlap; {}",
            faults.join(", ")
        );
    }
}

struct Beside {
    program: PathBuf,
    file: PathBuf,
    tally: Tally,
}

impl Beside {
    /// One journal, judged by both; the first difference ends it.
    fn judge(&mut self, fresh: Fresh, book: &[u8], what: &str) -> Result<Verdict, String> {
        fs::write(&self.file, book).expect("a file for the book");
        let line = program::line(&self.program, &self.file, fresh);
        let verdict = judge(fresh, book);
        if line != format!("{verdict}\n") {
            let file = self.file.display();
            return Err(format!(
                "{what}: verify says {line:?}, the reference {verdict}; the journal is {file}"
            ));
        }
        self.tally.verdict(fresh, verdict);
        Ok(verdict)
    }

    /// The journals of a list that nobody has damaged. Those begun with the fresh server must be accepted.
    fn kept(&mut self, seed: u64, numbers: &mut Numbers) -> Result<Closed, String> {
        let length = Author::new(seed).length;
        let (begun, ended) = (1 + numbers.below(length), numbers.below(length));
        let whole = closed(seed, 0, length);
        for (kept, what) in [(&whole, "whole"), (&closed(seed, 0, ended), "early")] {
            let what = format!("list {seed}, {what}");
            let entries = kept.entries;
            if self.judge(kept.fresh, &kept.book, &what)? != (Verdict::Accepted { entries }) {
                return Err(format!("{what}: not accepted"));
            }
            for found in reference::journal::reader::entries(&kept.book) {
                self.tally.tags[usize::from(found.body[0])] += 1;
            }
        }
        let late = closed(seed, begun, length);
        self.judge(late.fresh, &late.book, &format!("list {seed} from {begun}"))?;
        Ok(whole)
    }

    fn list(&mut self, seed: u64) -> Result<(), String> {
        let mut numbers = Numbers::new(seed ^ 0x6a75_6467);
        let Closed { fresh, book, .. } = self.kept(seed, &mut numbers)?;
        for way in WAYS {
            let (what, damaged) = way(&book, &mut numbers);
            self.judge(fresh, &damaged, &format!("list {seed}, {what}"))?;
        }
        let other = Fresh {
            vendor: fresh.vendor ^ (1 << numbers.below(16)),
            ..fresh
        };
        self.judge(other, &book, &format!("list {seed}, another vendor"))?;
        Ok(())
    }
}

/// A way to damage a journal: what was done, and the bytes.
type Way = fn(&[u8], &mut Numbers) -> (String, Vec<u8>);

const WAYS: [Way; 9] = [
    any_byte,
    any_byte,
    in_trailer,
    in_length,
    in_distance,
    in_body,
    other_tag,
    cut_short,
    left_out,
];

fn changed(book: &[u8], place: usize, numbers: &mut Numbers) -> (String, Vec<u8>) {
    let mut bytes = book.to_vec();
    bytes[place] ^= 1 + numbers.below(255) as u8;
    (format!("byte {place} changed"), bytes)
}

fn any_byte(book: &[u8], numbers: &mut Numbers) -> (String, Vec<u8>) {
    let place = numbers.below(book.len());
    changed(book, place, numbers)
}

fn in_trailer(book: &[u8], numbers: &mut Numbers) -> (String, Vec<u8>) {
    let place = book.len() - 1 - numbers.below(TRAILER - 4);
    changed(book, place, numbers)
}

/// An entry of a journal that has some.
fn some_entry<'a>(book: &'a [u8], numbers: &mut Numbers) -> (usize, Found<'a>) {
    let count = entries(book).count();
    let place = numbers.below(count);
    let found = entries(book).nth(place).expect("there are so many");
    (place, found)
}

fn in_length(book: &[u8], numbers: &mut Numbers) -> (String, Vec<u8>) {
    let (_, found) = some_entry(book, numbers);
    let place = found.at + numbers.pick(&[0, 1, 2, 3]);
    changed(book, place, numbers)
}

fn in_distance(book: &[u8], numbers: &mut Numbers) -> (String, Vec<u8>) {
    let (_, found) = some_entry(book, numbers);
    let place = found.next - 8 + numbers.below(4);
    changed(book, place, numbers)
}

/// The journal with other bodies, closed.
fn rewritten(bodies: &[Vec<u8>]) -> Vec<u8> {
    let mut bytes = Vec::new();
    let mut last = 0;
    for body in bodies {
        last = bytes.len();
        bytes.extend(entry(body));
    }
    bytes.extend(trailer(last as u32, bodies.len() as u32));
    bytes
}

fn bodies(book: &[u8]) -> Vec<Vec<u8>> {
    entries(book).map(|found| found.body.to_vec()).collect()
}

/// A byte of a body, with the sum that it then has.
fn in_body(book: &[u8], numbers: &mut Numbers) -> (String, Vec<u8>) {
    let (place, found) = some_entry(book, numbers);
    let at = numbers.below(found.body.len());
    let mut all = bodies(book);
    all[place][at] ^= 1 << numbers.below(8);
    (format!("byte {at} of body {place}"), rewritten(&all))
}

/// Another tag, with the sum that the entry then has.
fn other_tag(book: &[u8], numbers: &mut Numbers) -> (String, Vec<u8>) {
    let (place, found) = some_entry(book, numbers);
    let mut all = bodies(book);
    all[place][0] = (found.body[0] + 1 + numbers.below(10) as u8) % 11;
    (format!("tag of body {place}"), rewritten(&all))
}

fn cut_short(book: &[u8], numbers: &mut Numbers) -> (String, Vec<u8>) {
    let length = match numbers.below(2) {
        0 => numbers.below(book.len()),
        _ => book.len() - 1 - numbers.below(TRAILER),
    };
    (format!("the first {length} bytes"), book[..length].to_vec())
}

fn left_out(book: &[u8], numbers: &mut Numbers) -> (String, Vec<u8>) {
    let (place, _) = some_entry(book, numbers);
    let mut all = bodies(book);
    all.remove(place);
    (format!("entry {place} left out"), rewritten(&all))
}

fn compare(program: &Path) -> Result<(), String> {
    let folder = env::temp_dir().join(format!("judged-{}", process::id()));
    fs::create_dir_all(&folder).expect("a folder");
    let mut beside = Beside {
        program: program.to_path_buf(),
        file: folder.join("book"),
        tally: Tally::default(),
    };
    for seed in 1..=LISTS {
        beside.list(seed)?;
    }
    beside.tally.print();
    fs::remove_dir_all(&folder).expect("the folder goes");
    match beside.tally.often() {
        true => Ok(()),
        false => Err(format!("fewer than {FLOOR} of some kind")),
    }
}

fn main() -> ExitCode {
    let arguments: Vec<String> = env::args().skip(1).collect();
    let [program] = &arguments[..] else {
        eprintln!("judged PROGRAM");
        return ExitCode::from(2);
    };
    match compare(Path::new(program)) {
        Ok(()) => ExitCode::SUCCESS,
        Err(what) => {
            eprintln!("{what}");
            ExitCode::FAILURE
        }
    }
}
