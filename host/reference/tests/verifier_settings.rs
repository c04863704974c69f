//! Books with watches and lists of allowed commands: they are replayed like any other event.

mod books;

use books::{accepted, bodies, closed, kept, listed, watched, wrong};
use reference::compose::patterns;
use reference::journal::layout::body;
use reference::journal::Recorded;
use reference::verifier::{judge, Fault, Verdict};
use reference::{Event, Fresh};

fn verdict(bodies: &[Vec<u8>]) -> Verdict {
    let plain = books::plain_verdict(bodies);
    let judged = judge(Fresh::BENCH, &closed(bodies));
    assert_eq!(judged, plain);
    judged
}

fn above(session: u32, limit: f32) -> Vec<u8> {
    let limit = limit.to_bits();
    body(&Recorded::WatchAbove { session, limit }, b"")
}

#[test]
fn a_book_with_watches_is_replayed() {
    let bodies = bodies(&kept(Fresh::BENCH, &watched()));
    assert_eq!(bodies.len(), watched().len());
    assert_eq!(verdict(&bodies), accepted(bodies.len()));
    let tripping = bodies.len() - 2;
    let without = &bodies[tripping][..bodies[tripping].len() - 17];
    for (place, other) in [
        (tripping, without.to_vec()),
        (tripping - 1, above(1, f32::NAN)),
        (tripping - 1, above(2, 1.0)),
        (tripping + 1, [above(1, 1.0), vec![0]].concat()),
    ] {
        let mut changed = bodies.clone();
        changed[place] = other;
        assert_eq!(verdict(&changed), wrong(place, Fault::Parcels));
    }
    let mut unwatched = bodies;
    unwatched[tripping - 1] = body(&Recorded::WatchOff { session: 1 }, b"");
    let judged = verdict(&unwatched);
    assert_eq!(judged, wrong(tripping, Fault::Parcels), "nothing trips");
}

/// The order of a swap shows: a watch set behind the reading that it would have told of.
#[test]
fn a_watch_set_too_late() {
    let mut bodies = bodies(&kept(Fresh::BENCH, &watched()));
    let tripping = bodies.len() - 2;
    bodies.swap(tripping - 1, tripping);
    assert_eq!(verdict(&bodies), wrong(tripping - 1, Fault::Parcels));
}

fn list(text: &[u8]) -> Vec<u8> {
    let text = text.to_vec();
    body(&Recorded::Patterns { text }, b"")
}

#[test]
fn a_book_with_patterns_is_replayed() {
    let bodies = bodies(&kept(Fresh::BENCH, &listed()));
    assert_eq!(bodies.len(), listed().len());
    assert_eq!(verdict(&bodies), accepted(bodies.len()));
    let set = bodies.len() - 5;
    let with = |other: Vec<u8>| {
        let mut changed = bodies.clone();
        changed[set] = other;
        verdict(&changed)
    };
    let refused = wrong(set, Fault::Parcels);
    assert_eq!(
        with(list(b"*RST\nSYSTem:ERRor[:NEXT]")),
        wrong(set + 1, Fault::Parcels)
    );
    assert_eq!(
        with(list(b"*IDN?\nSYSTem:ERRor:NEXT?")),
        wrong(set + 2, Fault::Parcels)
    );
    for same in [&b"SYSTem:ERRor:NEXT?"[..], b"SYSTem:ERRor:NEXT?\n"] {
        assert_eq!(with(list(same)), accepted(bodies.len()));
    }
    assert_eq!(with(list(b"A\nSYSTem:ERRor:NEXt]?")), refused);
    assert_eq!(with(list(b"\n")), refused);
    assert_eq!(with(list(b"SYSTem:ERRor:NEXT?\n\n")), refused);
    assert_eq!(with(list(&b"A\n".repeat(33))), refused);
    assert_eq!(with(list(&[b'A'; 129])), refused);
    let framed = [list(b"A"), vec![0]].concat();
    assert_eq!(with(framed), refused);
}

/// The largest list makes the longest body of an event without frames.
#[test]
fn the_longest_list_has_an_entry() {
    let longest = vec![vec![b'A'; 128]; 32];
    let book = kept(Fresh::BENCH, &[patterns(&longest)]);
    let bodies = bodies(&book);
    assert_eq!(bodies[0].len(), 4_133);
    assert_eq!(verdict(&bodies), accepted(1));
}

/// A text without its last newline is another event: a byte less, which the journal keeps.
#[test]
fn both_forms_of_a_text_are_kept_as_they_are() {
    let text = |text: &[u8]| Event::Patterns {
        text: text.to_vec(),
    };
    for given in [&b"*RST\n*IDN?\n"[..], b"*RST\n*IDN?"] {
        let kept = bodies(&kept(Fresh::BENCH, &[text(given)]));
        assert_eq!(kept, [list(given)]);
        assert_eq!(verdict(&kept), accepted(1));
    }
}
