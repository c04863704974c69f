//! The books that are stored with their verdicts in `books/`: each is made here again, byte by byte.

use reference::compose::{answer, block, deliver, message, patterns, watch};
use reference::journal::framing::{entry, trailer, BODY_LIMIT};
use reference::journal::layout::body;
use reference::journal::Recorded;
use reference::{Event, Fresh, Mode, Watch};

use super::{bodies, closed, kept, listed, morning, places, session, watched};

pub const OVERLAP: Fresh = Fresh {
    vendor: 0x4558,
    prefers: Mode::Overlap,
};
const LETTERS: Fresh = Fresh {
    vendor: 0xabcd,
    prefers: Mode::Synchronized,
};

/// File names and bytes.
pub type Books = Vec<(&'static str, Vec<u8>)>;

pub fn stored() -> Books {
    [accepted(), faulty(), closed_wrongly(), ended_elsewhere()].concat()
}

/// Journals as a server keeps them.
fn accepted() -> Books {
    let longest = [vec![b'A'; 128], b"\n".to_vec()].concat().repeat(32);
    let text = |text: &[u8]| Event::Patterns { text: text.into() };
    vec![
        ("morning", kept(Fresh::BENCH, &morning())),
        ("morning-overlap", kept(OVERLAP, &morning())),
        ("watches", kept(Fresh::BENCH, &watched())),
        ("watches-overlap", kept(OVERLAP, &watched())),
        ("lists", kept(Fresh::BENCH, &listed())),
        (
            "watches-and-a-list",
            kept(Fresh::BENCH, &watched_and_listed()),
        ),
        ("longest-list", kept(Fresh::BENCH, &[text(&longest)])),
        ("vendor-letters", kept(LETTERS, &session(1, 0))),
        ("no-entries", kept(Fresh::BENCH, &[])),
    ]
}

/// Watches, a list beside the last one, commands that it allows and does not, and an answer that trips.
fn watched_and_listed() -> Vec<Event> {
    let mut events = watched();
    events.extend([
        patterns(&["READ", "READ?"]),
        watch(1, Watch::above(2.5)),
        deliver(0, message(7, 0, 0xffff_ff02, b"*RST")),
        deliver(0, message(7, 0, 0xffff_ff04, b"READ?")),
        answer(1, &block(&[2.0, 3.0]), 1),
    ]);
    events
}

/// The first entries of the morning, which the books with a fault are made of.
fn good() -> Vec<u8> {
    kept(Fresh::BENCH, &morning()[..12])
}

/// Entry 5 of it is wrong: that of the second session's Initialize.
const WRONG: usize = 5;

/// One fault each in an entry, and the framing right up to there.
fn faulty() -> Books {
    let good = good();
    let (at, next) = (places(&good)[WRONG], places(&good)[WRONG + 1]);
    let flipped = |place: usize| {
        let mut book = good.clone();
        book[place] ^= 0x80;
        book
    };
    let with = |body: &[u8]| {
        let mut all = bodies(&good);
        all[WRONG] = body.to_vec();
        closed(&all)
    };
    let right = &bodies(&good)[WRONG];
    let refused = body(&Recorded::Open { connection: 64 }, b"");
    let text = vec![b'A'; BODY_LIMIT - 5];
    vec![
        ("length", flipped(at)),
        ("length-5001", too_long(&good)),
        (
            "length-5000",
            with(&body(&Recorded::Patterns { text }, b"")),
        ),
        ("distance", flipped(next - 8)),
        ("sum", flipped(next - 1)),
        ("sum-of-body", flipped(at + 4)),
        ("layout", with(b"\x0a")),
        ("layout-no-tag", with(b"")),
        ("layout-field-short", with(&right[..8])),
        ("parcels", with(&[&right[..], b"\0"].concat())),
        ("parcels-missing", with(&right[..right.len() - 1])),
        ("parcels-refused", with(&refused)),
        ("entry-left-out", without(&bodies(&good), WRONG)),
    ]
}

/// An entry of 5,001 bytes, with distance and sum as they should be.
fn too_long(good: &[u8]) -> Vec<u8> {
    let (at, next) = (places(good)[WRONG], places(good)[WRONG + 1]);
    [&good[..at], &entry(&[9; BODY_LIMIT + 1]), &good[next..]].concat()
}

fn without(all: &[Vec<u8>], place: usize) -> Vec<u8> {
    closed(&[&all[..place], &all[place + 1..]].concat())
}

/// Right entries, and another closing trailer.
fn closed_wrongly() -> Books {
    let good = good();
    let entries = &good[..good.len() - 12];
    let (last, count) = (places(&good)[11] as u32, 12);
    let with = |last, count| [entries, &trailer(last, count)].concat();
    vec![
        ("trailer-offset", with(last + 1, count)),
        ("trailer-count", with(last, count - 1)),
        ("trailer-not-empty", trailer(0, 1)),
        ("trailer-byte-behind", [&good[..], b"\0"].concat()),
        (
            "trailer-twice",
            [&good[..], &good[good.len() - 12..]].concat(),
        ),
        ("trailer-cut", good[..good.len() - 1].to_vec()),
        ("trailer-mark", good[..good.len() - 8].to_vec()),
    ]
}

/// Cut short at a border of entries, and inside one; no bytes at all.
fn ended_elsewhere() -> Books {
    let good = good();
    let (at, next) = (places(&good)[WRONG], places(&good)[WRONG + 1]);
    let first = |end: usize| good[..end].to_vec();
    vec![
        ("cut-at-border", first(at)),
        ("cut-in-length", first(at + 3)),
        ("cut-in-body", first(at + 9)),
        ("cut-in-distance", first(next - 6)),
        ("cut-in-sum", first(next - 1)),
        ("not-closed", first(good.len() - 12)),
        ("no-bytes", Vec::new()),
    ]
}
