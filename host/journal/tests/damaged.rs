//! Whatever the bytes are, they are read to their end.

mod common;

use common::three_programs;
use journal::origin::Origin;
use journal::print::print;
use journal::repair::{repair, Repaired};
use reference::journal::reader::entries;
use reference::verifier::Verdict;

/// What is printed has a line for each whole entry; what is repaired has just these.
fn read(book: &[u8]) {
    let origin = Origin::of(book, None);
    let mut out = Vec::new();
    let verdict = print(book, origin.fresh(), &mut out).expect("written");
    let lines = out.iter().filter(|byte| **byte == b'\n').count();
    let whole: Vec<&[u8]> = entries(book).map(|found| found.body).collect();
    assert!(lines == whole.len() || lines == whole.len() + 1);
    match repair(book) {
        Repaired::ClosedAlready { entries } => assert_eq!(entries, whole.len() as u64),
        Repaired::NoJournal => assert!(whole.is_empty() && !book.is_empty()),
        Repaired::Closed {
            book: closed,
            left_out,
            ..
        } => {
            assert!(!matches!(verdict, Verdict::Accepted { .. }));
            let again: Vec<&[u8]> = entries(&closed).map(|found| found.body).collect();
            assert_eq!(again, whole);
            assert_eq!(closed.len() - 12 + left_out.bytes, book.len());
            let entries = whole.len() as u64;
            assert_eq!(repair(&closed), Repaired::ClosedAlready { entries });
        }
    }
}

#[test]
fn every_byte_changed() {
    let good = three_programs();
    read(&good);
    for place in 0..good.len() {
        let mut book = good.clone();
        book[place] = !book[place];
        read(&book);
    }
}

#[test]
fn every_prefix() {
    let good = three_programs();
    (0..good.len()).for_each(|end| read(&good[..end]));
}

#[test]
fn random_bytes() {
    let mut seed = 5_u64;
    let mut random = || {
        seed = seed.wrapping_mul(6_364_136_223_846_793_005).wrapping_add(1);
        (seed >> 33) as u8
    };
    for _ in 0..2_000 {
        let size = random();
        let book: Vec<u8> = (0..size).map(|_| random() & random() & random()).collect();
        read(&book);
    }
}
