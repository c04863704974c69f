//! The verdicts of the program `verify` beside the reference's, over many books: a morning at the bench in both
//! modes, watches and lists of allowed commands, every byte flipped, every prefix, entries swapped, doubled, left
//! out and replaced.
//!
//! `verdicts PROGRAM` runs it once for each book; the last line says how many verdicts were equal.
//! `verdicts --book FILE` writes the morning's journal, the one that the gate stores.
//! `verdicts --large FILE MEGABYTES` writes a long one, to measure the speed with.

#[path = "../tests/books/mod.rs"]
mod books;

use books::{bodies, book, closed, kept, listed, morning, watched};
use reference::compose::{answer, clock, deliver, message};
use reference::journal::layout::body;
use reference::journal::Recorded;
use reference::verifier::{judge, program};
use reference::{Event, Fresh, Mode};
use std::path::{Path, PathBuf};
use std::process::Command;
use std::{env, fs, process};

const OVERLAP: Fresh = Fresh {
    vendor: 0x4558,
    prefers: Mode::Overlap,
};

struct Beside {
    program: PathBuf,
    file: PathBuf,
    equal: u64,
}

impl Beside {
    /// One book, judged by both; the first difference ends it.
    fn judge(&mut self, fresh: Fresh, book: &[u8], what: &str) {
        fs::write(&self.file, book).expect("a file for the book");
        let expected = judge(fresh, book).to_string();
        let line = program::line(&self.program, &self.file, fresh);
        if line != expected.clone() + "\n" {
            eprintln!("{what}: verify says {line:?}, the reference {expected:?}");
            process::exit(1);
        }
        self.equal += 1;
    }

    /// A bad call: nothing on standard output, a line on standard error.
    fn refused(&mut self, arguments: &[&str]) {
        let run = Command::new(&self.program)
            .args(arguments)
            .output()
            .expect("the program runs");
        let line = String::from_utf8_lossy(&run.stderr).into_owned();
        if !run.stdout.is_empty() || line.lines().count() != 1 {
            eprintln!("{arguments:?}: verify says {line:?}");
            process::exit(1);
        }
        self.equal += 1;
    }

    fn bad_calls(&mut self, folder: &str) {
        let file = self.file.to_string_lossy().into_owned();
        for arguments in [
            vec![],
            vec![file.as_str()],
            vec![&file, "4141"],
            vec![&file, "4141", "synchronized", "more"],
            vec![&file, "414", "synchronized"],
            vec![&file, "41g1", "synchronized"],
            vec![&file, "4141", "Overlap"],
            vec![folder, "4141", "synchronized"],
            vec!["/no/such/file", "4141", "overlap"],
            vec!["", "4141", "overlap"],
        ] {
            self.refused(&arguments);
        }
    }

    fn damaged(&mut self, book: &[u8]) {
        for place in 0..book.len() {
            for bit in [0x01, 0x80] {
                let mut flipped = book.to_vec();
                flipped[place] ^= bit;
                self.judge(Fresh::BENCH, &flipped, &format!("byte {place} flipped"));
            }
            self.judge(
                Fresh::BENCH,
                &book[..place],
                &format!("the first {place} bytes"),
            );
        }
        for more in [b"\0".as_slice(), b"BACK", &[7; 5000]] {
            self.judge(
                Fresh::BENCH,
                &[book, more].concat(),
                "bytes behind the trailer",
            );
        }
    }

    /// Other watches and lists in the place of each one, with no frames and with one byte of them.
    fn replaced(&mut self, all: &[Vec<u8>], events: &[Event]) {
        let is_setting =
            |event: &Event| matches!(event, Event::Watch { .. } | Event::Patterns { .. });
        let places = (0..all.len()).filter(|place| is_setting(&events[*place]));
        for place in places {
            for other in [watches(), lists()].concat() {
                for frames in [&b""[..], b"\0"] {
                    let mut changed = all.to_vec();
                    changed[place] = body(&other, frames);
                    let what = format!("entry {place} is {other:?}");
                    self.judge(Fresh::BENCH, &closed(&changed), &what);
                }
            }
        }
    }

    fn moved(&mut self, all: &[Vec<u8>]) {
        for place in 0..all.len() {
            let mut without = all.to_vec();
            without.remove(place);
            self.judge(
                Fresh::BENCH,
                &closed(&without),
                &format!("entry {place} left out"),
            );
            let mut twice = all.to_vec();
            twice.insert(place, all[place].clone());
            self.judge(
                Fresh::BENCH,
                &closed(&twice),
                &format!("entry {place} doubled"),
            );
            let mut swapped = all.to_vec();
            swapped.swap(place, (place + 1) % all.len());
            self.judge(
                Fresh::BENCH,
                &closed(&swapped),
                &format!("entry {place} swapped"),
            );
        }
    }
}

/// Watches with each limit, good and bad, and of a session that is not there.
fn watches() -> Vec<Recorded> {
    let limits = [0.0, -0.0, 1.0, f32::MIN_POSITIVE, f32::INFINITY];
    let numbers = limits
        .iter()
        .flat_map(|limit| [limit.to_bits(), (-limit).to_bits()]);
    let bits: Vec<u32> = numbers
        .chain([0x7f80_0001, 0x7fc0_0000, 0xffff_ffff])
        .collect();
    let mut watches = Vec::new();
    for session in [0, 1, 2] {
        watches.push(Recorded::WatchOff { session });
        for &low in &bits {
            let limit = low;
            watches.push(Recorded::WatchAbove { session, limit });
            let outside = |&high: &u32| Recorded::WatchOutside { session, low, high };
            watches.extend(bits.iter().map(outside));
        }
    }
    watches
}

/// Lists by their text, good and bad, with and without the last newline.
fn lists() -> Vec<Recorded> {
    let longest = [vec![b'A'; 128], b"\n".to_vec()].concat().repeat(32);
    let texts = [
        b"".to_vec(),
        b"\n".to_vec(),
        b"*RST".to_vec(),
        b"*RST\n".to_vec(),
        b"*RST\n\n".to_vec(),
        b"*RST\r\n".to_vec(),
        b"*IDN?\nSYSTem:ERRor[:NEXT]?".to_vec(),
        b"*IDN?\nSYSTem:ERRor[:NEXT?".to_vec(),
        b"A\n".repeat(32),
        b"A\n".repeat(33),
        b"a\n".repeat(33),
        longest[..longest.len() - 1].to_vec(),
        [&longest[..], b"A"].concat(),
        longest,
        vec![b'A'; 129],
        vec![b'A'; 4_990],
    ];
    texts.map(|text| Recorded::Patterns { text }).into()
}

/// Questions and answers, with the clock, up to so many bytes.
fn large(bytes: usize) -> Vec<u8> {
    let mut events = morning()[..8].to_vec();
    let mut length = 0;
    let mut number = 0xffff_ff00u32;
    let mut time = 0;
    while length < bytes {
        let reading = vec![b'7'; 200];
        events.push(clock(time));
        events.push(deliver(0, message(7, u8::from(time > 0), number, b"READ?")));
        events.push(answer(1, &reading, 1));
        number = number.wrapping_add(2);
        time += 1;
        length += 21 + 42 + 445;
    }
    kept_large(&events)
}

fn kept_large(events: &[Event]) -> Vec<u8> {
    let mut keeping = reference::journal::Keeping::new(Fresh::BENCH, 1 << 31);
    for event in events {
        keeping.event(event);
    }
    keeping.close()
}

fn compare(program: &Path) {
    let folder = env::temp_dir().join(format!("verdicts-{}", process::id()));
    fs::create_dir_all(&folder).expect("a folder");
    let mut beside = Beside {
        program: program.to_path_buf(),
        file: folder.join("book"),
        equal: 0,
    };
    let good = book();
    beside.judge(Fresh::BENCH, &good, "the morning");
    beside.judge(
        OVERLAP,
        &kept(OVERLAP, &morning()),
        "the morning in overlap mode",
    );
    beside.judge(OVERLAP, &good, "another vendor and mode");
    beside.judge(Fresh::BENCH, b"", "no bytes");
    beside.damaged(&kept(Fresh::BENCH, &morning()[..12]));
    beside.moved(&bodies(&good));
    for events in [watched(), listed()] {
        let good = kept(Fresh::BENCH, &events);
        beside.judge(Fresh::BENCH, &good, "watches and lists");
        beside.damaged(&good);
        beside.moved(&bodies(&good));
        beside.replaced(&bodies(&good), &events);
    }
    beside.bad_calls(&folder.to_string_lossy());
    println!("{} verdicts equal", beside.equal);
    fs::remove_dir_all(&folder).expect("the folder goes");
}

fn main() {
    let arguments: Vec<String> = env::args().skip(1).collect();
    match arguments.iter().map(String::as_str).collect::<Vec<_>>()[..] {
        ["--book", file] => fs::write(file, book()).expect("the book is written"),
        ["--large", file, megabytes] => {
            let size = megabytes.parse::<usize>().expect("megabytes");
            fs::write(file, large(size * 1_000_000)).expect("the book is written");
        }
        [program] => compare(Path::new(program)),
        _ => {
            eprintln!("verdicts PROGRAM | --book FILE | --large FILE MEGABYTES");
            process::exit(2);
        }
    }
}
