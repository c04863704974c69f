//! The verdict: good books, each kind of fault, every byte flipped, every prefix, entries moved, any cut.

mod books;

use books::{accepted, bodies, book, closed, kept, morning, places, plain_verdict, wrong};
use reference::compose::clock;
use reference::journal::framing::{entry, trailer, BODY_LIMIT};
use reference::journal::layout::body;
use reference::journal::Recorded;
use reference::verifier::{judge, Fault, Verdict, Verifier};
use reference::{Event, Fresh, Mode};

const OVERLAP: Fresh = Fresh {
    vendor: 0x4558,
    prefers: Mode::Overlap,
};

fn verdict(book: &[u8]) -> Verdict {
    judge(Fresh::BENCH, book)
}

fn in_pieces<'a>(pieces: impl IntoIterator<Item = &'a [u8]>) -> Verdict {
    let mut verifier = Verifier::new(Fresh::BENCH);
    for piece in pieces {
        verifier.feed(piece);
    }
    verifier.verdict()
}

/// The verdict over the whole, which byte by byte is the same.
fn both(book: &[u8]) -> Verdict {
    let whole = verdict(book);
    assert_eq!(in_pieces(book.chunks(1)), whole);
    whole
}

fn opening(connection: u32) -> Vec<u8> {
    body(&Recorded::Open { connection }, b"")
}

#[test]
fn what_was_kept_from_a_fresh_server_is_accepted() {
    let count = morning().len();
    assert_eq!(both(&book()), accepted(count));
    let other = kept(OVERLAP, &morning());
    assert_eq!(judge(OVERLAP, &other), accepted(count));
    assert_eq!(both(&other), wrong(1, Fault::Parcels), "the mode is told");
    let vendor = Fresh {
        vendor: 0,
        ..Fresh::BENCH
    };
    assert_eq!(judge(vendor, &book()), wrong(3, Fault::Parcels));
}

#[test]
fn the_empty_book() {
    assert_eq!(both(b"BACK\0\0\0\0\0\0\0\0"), accepted(0));
    assert_eq!(both(b"BACK\0\0\0\0\0\0\0\x01"), wrong(0, Fault::Trailer));
    assert_eq!(both(b"BACK\0\0\0\x01\0\0\0\0"), wrong(0, Fault::Trailer));
    for short in 4..12 {
        let book = &b"BACK\0\0\0\0\0\0\0\0"[..short];
        assert_eq!(both(book), wrong(0, Fault::Trailer));
    }
    for short in 0..4 {
        assert_eq!(both(&b"BACK"[..short]), wrong(0, Fault::Length));
    }
    let more = b"BACK\0\0\0\0\0\0\0\0\0";
    assert_eq!(both(more), wrong(0, Fault::Trailer));
}

#[test]
fn the_line_that_is_printed() {
    assert_eq!(accepted(38).to_string(), "accepted: 38 entries");
    let kinds = [
        (Fault::Length, "entry 7: length"),
        (Fault::Distance, "entry 7: distance"),
        (Fault::Sum, "entry 7: sum"),
        (Fault::Layout, "entry 7: layout"),
        (Fault::Parcels, "entry 7: parcels"),
        (Fault::Trailer, "entry 7: closing trailer"),
    ];
    for (fault, line) in kinds {
        assert_eq!(wrong(7, fault).to_string(), line);
    }
}

/// A right entry, a wrong one, and a trailer that agrees.
fn second(wrong: Vec<u8>) -> Vec<u8> {
    let first = entry(&opening(0));
    let last = first.len() as u32;
    [first, wrong, trailer(last, 2)].concat()
}

#[test]
fn each_kind_of_fault_and_their_order() {
    let good = entry(&opening(1));
    assert_eq!(both(&second(good.clone())), accepted(2));
    let end = good.len();
    let changed = |places: &[usize]| {
        let mut bytes = good.clone();
        places.iter().for_each(|place| bytes[*place] ^= 0x80);
        both(&second(bytes))
    };
    assert_eq!(changed(&[0, end - 8, end - 1]), wrong(1, Fault::Length));
    assert_eq!(changed(&[4, end - 8, end - 1]), wrong(1, Fault::Distance));
    assert_eq!(changed(&[4]), wrong(1, Fault::Sum), "a bad tag too");
    let judged = |body: &[u8]| both(&second(entry(body)));
    assert_eq!(judged(b"\x0a"), wrong(1, Fault::Layout));
    assert_eq!(judged(b""), wrong(1, Fault::Layout));
    assert_eq!(judged(&opening(0)), wrong(1, Fault::Parcels), "open");
    assert_eq!(judged(&opening(64)), wrong(1, Fault::Parcels));
    let frames = body(&Recorded::Open { connection: 1 }, b"\0");
    assert_eq!(judged(&frames), wrong(1, Fault::Parcels));
    let mut late = second(b"\0\0\0\x01".to_vec());
    assert_eq!(both(&late), wrong(1, Fault::Distance));
    late.truncate(late.len() - 5);
    assert_eq!(both(&late), wrong(1, Fault::Length), "falls short");
    let long = entry(&[0; BODY_LIMIT + 1]);
    assert_eq!(both(&second(long)), wrong(1, Fault::Length));
}

#[test]
fn the_layout_is_shape_and_a_refused_event_a_fault_of_parcels() {
    let answer = Recorded::Answer {
        session: 1,
        end: true,
        payload: vec![0; 2000],
        shown: vec![],
    };
    let many = Recorded::Patterns {
        text: b"A\n".repeat(33),
    };
    let long = Recorded::Patterns {
        text: vec![b'A'; 129],
    };
    let off = Recorded::WatchOff { session: 9 };
    let late = Recorded::Clock {
        milliseconds: u64::MAX,
    };
    for event in [answer, many, long, off, late] {
        let book = closed(&[opening(0), body(&event, b"")]);
        assert_eq!(both(&book), wrong(1, Fault::Parcels), "{event:?}");
    }
}

/// What one flipped bit of a good book is, by where it stands.
fn flipped(book: &[u8], places: &[usize], byte: usize, bit: u32) -> Verdict {
    let entry = places.iter().filter(|place| **place <= byte).count() - 1;
    let (at, inside) = (places[entry], byte - places[entry]);
    let length = u32::from_be_bytes(*book[at..].first_chunk().expect("a number"));
    if entry + 1 == places.len() {
        let fault = match inside {
            0..4 => Fault::Length,
            _ => Fault::Trailer,
        };
        return wrong(entry, fault);
    }
    let fault = match inside {
        0..4 => {
            let length = (length ^ 1 << (8 * (3 - inside as u32) + bit)) as usize;
            match length > BODY_LIMIT || at + length + 12 > book.len() {
                true => Fault::Length,
                false => Fault::Distance,
            }
        }
        _ if inside < 4 + length as usize => Fault::Sum,
        _ if inside < 8 + length as usize => Fault::Distance,
        _ => Fault::Sum,
    };
    wrong(entry, fault)
}

#[test]
fn every_bit_of_a_book_flipped() {
    let mut book = book();
    let (good, places) = (book.clone(), places(&book));
    for byte in 0..book.len() {
        for bit in 0..8 {
            book[byte] ^= 1 << bit;
            let expected = flipped(&good, &places, byte, bit);
            assert_eq!(verdict(&book), expected, "byte {byte}, bit {bit}");
            assert_eq!(in_pieces(book.chunks(997)), expected);
            book[byte] ^= 1 << bit;
        }
    }
}

#[test]
fn every_prefix_of_a_book() {
    let book = book();
    let places = places(&book);
    let trailer = places[places.len() - 1];
    for stopped in 0..book.len() {
        let entry = places.iter().filter(|place| **place <= stopped).count() - 1;
        let fault = match stopped < trailer + 4 {
            true => Fault::Length,
            false => Fault::Trailer,
        };
        assert_eq!(verdict(&book[..stopped]), wrong(entry, fault));
        assert_eq!(in_pieces(book[..stopped].chunks(61)), wrong(entry, fault));
    }
    for behind in [&b"\0"[..], b"BACK", &book] {
        let longer = [&book, behind].concat();
        assert_eq!(both(&longer), wrong(places.len() - 1, Fault::Trailer));
    }
}

/// The verdict on entries that were moved: on the list if it is wrong, else on the trailer.
fn moved(list: &[Vec<u8>], as_it_was: &[u8]) {
    let again = closed(list);
    let expected = plain_verdict(list);
    assert_eq!(verdict(&again), expected);
    let (entries, trailer) = again.split_at(again.len() - 12);
    let stale = [entries, as_it_was].concat();
    let expected = match expected {
        Verdict::Accepted { .. } if trailer != as_it_was => wrong(list.len(), Fault::Trailer),
        other => other,
    };
    assert_eq!(verdict(&stale), expected);
    assert_eq!(in_pieces(stale.chunks(13)), expected);
}

#[test]
fn entries_left_out_doubled_and_swapped() {
    let book = book();
    let as_it_was = &book[book.len() - 12..];
    let all = bodies(&book);
    for place in 0..all.len() {
        let mut list = all.clone();
        let one = list.remove(place);
        moved(&list, as_it_was);
        list.insert(place, one.clone());
        list.insert(place, one);
        moved(&list, as_it_was);
        for other in place + 1..all.len() {
            let mut list = all.clone();
            list.swap(place, other);
            moved(&list, as_it_was);
        }
    }
}

#[test]
fn a_trailer_must_name_last_offset_and_count() {
    let book = book();
    let places = places(&book);
    let count = places.len() - 1;
    let entries = &book[..places[count]];
    let last = places[count - 1] as u32;
    for (last, count) in [
        (0, count as u32),
        (places[1] as u32, count as u32),
        (last + 1, count as u32),
        (last, 0),
        (last, count as u32 - 1),
        (last, count as u32 + 1),
        (count as u32, last),
    ] {
        let other = [entries, &trailer(last, count)].concat();
        assert_eq!(both(&other), wrong(places.len() - 1, Fault::Trailer));
    }
}

#[test]
fn the_verdict_does_not_depend_on_the_cut() {
    let good = book();
    let all = bodies(&good);
    let mut bad = good.clone();
    bad[places(&good)[20] + 6] ^= 4;
    let left_out = closed(&[&all[..9], &all[10..]].concat());
    let behind = [&good[..], b"x"].concat();
    for book in [good, bad, left_out, behind] {
        let whole = verdict(&book);
        for cut in 0..=book.len() {
            let (first, second) = book.split_at(cut);
            assert_eq!(in_pieces([first, second]), whole, "cut at {cut}");
        }
        for size in 1..40 {
            assert_eq!(in_pieces(book.chunks(size)), whole, "pieces of {size}");
        }
        assert_eq!(in_pieces([&b""[..], &book, b""]), whole);
    }
}

#[test]
fn a_long_book_is_fed_in_pieces() {
    let mut events = vec![Event::Open { connection: 5 }];
    events.extend((0..20_000).map(clock));
    let book = kept(Fresh::BENCH, &events);
    let pieces = book.chunks(65_536);
    assert!(pieces.len() > 5);
    assert_eq!(in_pieces(pieces), accepted(20_001));
}

/// Random rows of the morning's events: what is kept of them is accepted, and one entry less is judged as the
/// list says.
#[test]
fn random_lists_kept_and_judged() {
    let pool = morning();
    let mut seed = 7_u64;
    let mut random = |below: usize| {
        seed = seed.wrapping_mul(6_364_136_223_846_793_005).wrapping_add(1);
        (seed >> 33) as usize % below
    };
    let mut entries = 0;
    for _ in 0..100 {
        let start = pool[..8].iter().cloned();
        let drawn = (0..60).map(|_| pool[random(pool.len())].clone());
        let events: Vec<Event> = start.chain(drawn).collect();
        let book = kept(Fresh::BENCH, &events);
        let mut list = bodies(&book);
        entries += list.len();
        assert_eq!(verdict(&book), accepted(list.len()));
        list.remove(random(list.len()));
        moved(&list, &book[book.len() - 12..]);
    }
    assert!(entries > 2_000, "{entries} were accepted");
}
