//! Entries in a lent book: writer, both readers, the sum, and writing that stops.

mod books;

use books::{bodies, book, places};
use reference::journal::crc::crc32;
use reference::journal::framing::{entry, trailer, BODY_LIMIT};
use reference::journal::reader::{backward, entries, entries_backward, forward, Found};
use reference::journal::{Kept, Writer};

const OPEN: Writer = Writer {
    written: 0,
    last: 0,
    count: 0,
    closed: 0,
};

#[test]
fn published_sums() {
    for (text, sum) in [
        (&b""[..], 0),
        (b"123456789", 0xcbf4_3926),
        (b"abc", 0x3524_41c2),
        (b"The quick brown fox jumps over the lazy dog", 0x414f_a339),
    ] {
        assert_eq!(crc32(text), sum);
    }
}

#[test]
fn the_two_journals_of_the_page() {
    let mut book = [0xaa; 60];
    let mut writer = OPEN;
    assert_eq!(writer.close(&mut book), Kept::Written);
    assert_eq!(book[..12], *b"BACK\0\0\0\0\0\0\0\0");
    assert_eq!(book[12..], [0xaa; 48]);

    let mut writer = OPEN;
    writer.append(&mut book, b"abc");
    writer.append(&mut book, b"");
    writer.close(&mut book);
    let expected = [
        &[
            0, 0, 0, 3, b'a', b'b', b'c', 0, 0, 0, 7, 0x45, 0xbc, 0xe8, 0x40,
        ][..],
        &[0, 0, 0, 0, 0, 0, 0, 4, 0x21, 0x44, 0xdf, 0x1c],
        &[b'B', b'A', b'C', b'K', 0, 0, 0, 15, 0, 0, 0, 2],
    ]
    .concat();
    assert_eq!(book[..expected.len()], expected);
    let after = Writer {
        written: 39,
        last: 15,
        count: 2,
        closed: 1,
    };
    assert_eq!(writer, after);
}

#[test]
fn no_room_is_exact_and_writes_nothing() {
    for room in 0..60 {
        let mut book = vec![0xaa; room];
        let mut writer = OPEN;
        let begun = writer.begin(&book);
        assert_eq!(begun == Kept::Written, room >= 12);
        let kept = writer.append(&mut book, b"abc");
        assert_eq!(kept == Kept::Written, room >= 15 + 12);
        if kept == Kept::NoRoom {
            assert_eq!((&book, writer), (&vec![0xaa; room], OPEN));
        }
        let left = room - writer.written as usize;
        let kept = writer.close(&mut book);
        assert_eq!(kept == Kept::Written, left >= 12, "a kept entry leaves it");
    }
}

#[test]
fn a_closed_journal_says_so_first() {
    let mut book = [0; 12];
    let mut writer = OPEN;
    assert_eq!(writer.close(&mut book), Kept::Written);
    let (before, words) = (book, writer);
    assert_eq!(writer.append(&mut book, b"no room either"), Kept::Closed);
    assert_eq!(writer.close(&mut book), Kept::Closed);
    assert_eq!((book, writer), (before, words));
    assert_eq!(writer.begin(&book), Kept::Written);
    assert_eq!((book, writer), (before, OPEN));
}

#[test]
fn any_bits_in_the_words() {
    let mut book = [0xaa; 64];
    for written in [53, 64, 65, u64::from(u32::MAX), u64::MAX] {
        let words = Writer { written, ..OPEN };
        let mut writer = words;
        assert_eq!(writer.append(&mut book, b""), Kept::NoRoom);
        assert_eq!(writer.close(&mut book), Kept::NoRoom);
        assert_eq!((book, writer), ([0xaa; 64], words));
    }
    let mut writer = Writer {
        written: 10,
        last: u64::MAX,
        count: u64::MAX,
        closed: 0,
    };
    writer.close(&mut book);
    assert_eq!(book[10..22], trailer(u32::MAX, u32::MAX));
    writer.closed = 0;
    writer.append(&mut book, b"");
    assert_eq!((writer.last, writer.count), (22, 0));
}

#[test]
fn the_backward_reader_gives_the_forward_readers_entries_last_first() {
    let book = book();
    let mut there: Vec<_> = entries(&book).map(|found| (found.at, found.body)).collect();
    assert_eq!(there.len(), books::morning().len());
    let back: Vec<_> = entries_backward(&book)
        .map(|found| (found.at, found.body))
        .collect();
    there.reverse();
    assert_eq!(back, there);
    let open = &book[..book.len() - 12];
    assert_eq!(entries_backward(open).count(), 0, "not closed");
    assert_eq!(entries(open).count(), there.len());
}

#[test]
fn readers_say_where_they_go_on() {
    let book = [entry(b"abc"), entry(b""), trailer(15, 2)].concat();
    let first = forward(&book, 0).expect("whole");
    assert_eq!((first.at, first.body, first.next), (0, &b"abc"[..], 15));
    assert_eq!(forward(&book, 15).map(|found| found.next), Some(27));
    for at in [1, 14, 27, 28, 39, 40, usize::MAX] {
        assert_eq!(forward(&book, at), None);
    }
    assert_eq!(backward(&book, 27).map(|found| found.next), Some(15));
    assert_eq!(backward(&book, 15), Some(Found { next: 0, ..first }));
    for at in [0, 7, 8, 14, 16, 28, 39, usize::MAX] {
        assert_eq!(backward(&book, at), None);
    }
}

#[test]
fn neither_reader_passes_a_wrong_distance_sum_or_length() {
    let good = [entry(b"abc"), entry(b"de"), trailer(15, 2)].concat();
    for place in 15..29 {
        let mut book = good.clone();
        book[place] ^= 1;
        assert_eq!(entries(&book).count(), 1, "byte {place}");
        assert_eq!(entries_backward(&book).count(), 0, "byte {place}");
    }
    let long = [entry(&[7; BODY_LIMIT]), trailer(0, 1)].concat();
    assert_eq!(entries(&long).count(), 1);
    let longer = [entry(&[7; BODY_LIMIT + 1]), trailer(0, 1)].concat();
    assert_eq!(entries(&longer).count(), 0);
    assert_eq!(entries_backward(&longer).count(), 0);
}

#[test]
fn the_backward_reader_wants_an_entry_that_reaches_to_where_it_came_from() {
    let behind = [[0; 7].as_slice(), &22_u32.to_be_bytes(), &[0; 4]].concat();
    let book = [entry(b"abc"), behind, trailer(0, 1)].concat();
    assert_eq!(entries(&book).count(), 1);
    assert_eq!(entries_backward(&book).count(), 0);
}

#[test]
fn the_backward_reader_needs_neither_offset_nor_count() {
    let book = [entry(b"abc"), trailer(77, 88)].concat();
    assert_eq!(entries_backward(&book).count(), 1);
}

#[test]
fn writing_that_stops_after_any_byte_leaves_the_whole_entries() {
    let book = book();
    let (all, places) = (bodies(&book), places(&book));
    for stopped in 0..=book.len() {
        let whole = places.iter().filter(|place| **place <= stopped).count() - 1;
        assert_eq!(bodies(&book[..stopped]), all[..whole], "byte {stopped}");
    }
}
