//! The layout of bodies: one encoding for each event, and shape only.

use reference::compose::{answer_beside, deliver};
use reference::journal::events::{recorded, replayable};
use reference::journal::layout::{body, decode, encode};
use reference::journal::{Keeping, Kept, Recorded};
use reference::{Event, Fresh};

fn samples() -> Vec<(Recorded, usize)> {
    let row = |n: usize| vec![0x5a; n];
    let answer = |payload, shown| Recorded::Answer {
        session: 65_536,
        end: true,
        payload: row(payload),
        shown: row(shown),
    };
    vec![
        (Recorded::Open { connection: 200 }, 5),
        (delivery(0), 9),
        (delivery(1040), 9 + 1040),
        (Recorded::Cut { connection: 63 }, 5),
        (clock(u64::MAX), 9),
        (answer(0, 0), 14),
        (answer(2000, 16), 14 + 2000 + 16),
        (Recorded::Status { status: 0x41 }, 2),
        (Recorded::WatchOff { session: 7 }, 5),
        (above(1.5), 9),
        (outside(f32::NAN, -0.0), 13),
        (patterns(b""), 5),
        (patterns(b"*IDN?\n\nMEASure?"), 5 + 15),
        (patterns(&[b'\n'; 33]), 5 + 33),
    ]
}

fn delivery(bytes: usize) -> Recorded {
    Recorded::Deliver {
        connection: 3,
        shown: vec![0x48; bytes],
    }
}

fn clock(milliseconds: u64) -> Recorded {
    Recorded::Clock { milliseconds }
}

fn above(limit: f32) -> Recorded {
    Recorded::WatchAbove {
        session: 7,
        limit: limit.to_bits(),
    }
}

fn outside(low: f32, high: f32) -> Recorded {
    Recorded::WatchOutside {
        session: 7,
        low: low.to_bits(),
        high: high.to_bits(),
    }
}

fn patterns(text: &[u8]) -> Recorded {
    let text = text.to_vec();
    Recorded::Patterns { text }
}

#[test]
fn what_is_encoded_is_read_again_whatever_follows() {
    for (place, (event, size)) in samples().into_iter().enumerate() {
        assert_eq!(encode(&event).len(), size, "sample {place}");
        for frames in [&b""[..], b"\0", b"frames, any bytes"] {
            let body = body(&event, frames);
            assert_eq!(decode(&body), Some((event.clone(), frames)));
        }
    }
}

#[test]
fn a_body_as_the_table_has_it() {
    let event = Recorded::Answer {
        session: 1,
        end: false,
        payload: b"+1".to_vec(),
        shown: b"H".to_vec(),
    };
    let expected = b"\x04\0\0\0\x01\0\0\0\0\x02+1\0\0\0\x01H";
    assert_eq!(encode(&event), expected);
    assert_eq!(
        encode(&outside(1.0, 2.0)),
        b"\x08\0\0\0\x07\x3f\x80\0\0\x40\0\0\0"
    );
    assert_eq!(encode(&clock(256)), b"\x03\0\0\0\0\0\0\x01\0");
}

#[test]
fn a_field_that_falls_short_is_no_layout() {
    for (event, size) in samples() {
        let bytes = encode(&event);
        let short = (0..size).filter(|short| decode(&bytes[..*short]).is_some());
        assert_eq!(short.count(), 0, "{event:?}");
    }
}

#[test]
fn no_other_tag_flag_or_length() {
    for tag in 10..=255 {
        assert_eq!(decode(&[&[tag][..], &[0; 40]].concat()), None);
    }
    let mut answer = encode(&samples()[5].0);
    for end in 2..=255 {
        answer[5] = end;
        assert_eq!(decode(&answer), None, "END {end}");
    }
    assert_eq!(decode(&encode(&delivery(1041))), None);
    let shown = Recorded::Answer {
        session: 1,
        end: true,
        payload: vec![],
        shown: vec![0; 17],
    };
    assert_eq!(decode(&encode(&shown)), None);
    assert_eq!(decode(b"\x09\xff\xff\xff\xff"), None, "rows without end");
}

/// Whatever is read was written so: no second encoding. Bodies that begin like events, then random bytes.
#[test]
fn what_is_read_was_so_encoded() {
    let mut seed = 1_u64;
    let mut random = || {
        seed = seed.wrapping_mul(6_364_136_223_846_793_005).wrapping_add(1);
        (seed >> 33) as u8
    };
    let mut read = 0;
    for _ in 0..20_000 {
        let mut bytes = vec![random() % 11];
        bytes.extend((0..random() % 40).map(|_| random() & random() & random() & random() & 3));
        if let Some((event, frames)) = decode(&bytes) {
            read += 1;
            assert_eq!(body(&event, frames), bytes);
        }
    }
    assert!(read > 2_000, "{read}");
}

#[test]
fn the_servers_events_are_recorded_as_far_as_they_count() {
    let long = deliver(3, vec![7; 2000]);
    let Recorded::Deliver { shown, .. } = recorded(&long) else {
        panic!("a delivery");
    };
    assert_eq!(shown, [7; 1040]);
    let beside = answer_beside(1, b"+1", 255, vec![9; 40]);
    let again = replayable(recorded(&beside));
    assert_eq!(again, answer_beside(1, b"+1", 1, vec![9; 16]));
    for limits in [above(1.0), outside(f32::NAN, -0.0)] {
        let event = replayable(limits.clone());
        assert_eq!(recorded(&event), limits);
    }
    for text in [&b""[..], b"\n", b"*IDN?\nMEASure?", b"*IDN?\nMEASure?\n"] {
        let event = Event::Patterns {
            text: text.to_vec(),
        };
        assert_eq!(recorded(&event), patterns(text), "the last newline too");
        assert_eq!(replayable(patterns(text)), event);
    }
}

#[test]
fn refused_events_have_no_entry_and_no_room_leaves_what_was_done() {
    let mut keeping = Keeping::new(Fresh::BENCH, 17 + 12);
    let open = |connection| Event::Open { connection };
    assert_eq!(keeping.event(&open(64)).0.refusal, 1);
    assert_eq!(keeping.written(), b"");
    assert_eq!(keeping.event(&open(0)).1, Kept::Written);
    assert_eq!(keeping.event(&open(1)).1, Kept::NoRoom);
    let (reply, kept) = keeping.event(&open(1));
    assert_eq!((reply.refusal, kept), (2, Kept::Written), "it is open");
    assert_eq!(keeping.close().len(), 17 + 12);
}
