//! The books of `books/` with the verdicts stored beside them. The program `verify` is held to the same lines by
//! `make verdicts`.

mod books;

use std::fs;
use std::path::{Path, PathBuf};

use books::stored::stored;
use reference::verifier::judge;
use reference::{Fresh, Mode};

fn folder() -> PathBuf {
    Path::new(env!("CARGO_MANIFEST_DIR")).join("books")
}

fn mode(word: &str) -> Mode {
    let modes = [Mode::Synchronized, Mode::Overlap];
    let mode = modes.into_iter().find(|mode| mode.name() == word);
    mode.expect("a mode")
}

/// What is stored is what is made, in small files.
#[test]
fn books_are_made_again() {
    let mut size = 0;
    for (name, book) in stored() {
        assert_eq!(fs::read(folder().join(name)).expect(name), book, "{name}");
        size += book.len();
    }
    assert!(size < 65_536, "{size}");
    let files = fs::read_dir(folder()).expect("there").count();
    assert_eq!(files, stored().len() + 2, "verdicts.txt and refused.txt");
}

/// The reference gives the verdicts stored, and every book has one.
#[test]
fn verdicts_are_the_reference_s() {
    let text = fs::read_to_string(folder().join("verdicts.txt")).expect("there");
    let mut judged = Vec::new();
    for line in text.lines() {
        let (call, verdict) = line.split_once(": ").expect("a verdict");
        let [name, vendor, prefers] = call.split(' ').collect::<Vec<_>>()[..] else {
            panic!("{line}");
        };
        let fresh = Fresh {
            vendor: u16::from_str_radix(vendor, 16).expect("a number"),
            prefers: mode(prefers),
        };
        let book = fs::read(folder().join(name)).expect(name);
        assert_eq!(judge(fresh, &book).to_string(), verdict, "{call}");
        judged.push(name.to_owned());
    }
    for (name, _) in stored() {
        assert!(judged.iter().any(|judged| judged == name), "{name}");
    }
}
