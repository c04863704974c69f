//! Answers beside unread bytes of every kind, and messages with and without RMT-delivered after them
//!

use reference::Event;

use crate::bout::{Bout, Failed, Pair, BENCH};
use crate::messages::{answer, answer_beside, deliver, header, lock, message, message_id, session};

/// Types whose codes, lengths and shown parts are varied: those that interrupt and some that do not.
const KINDS: [u8; 7] = [0, 6, 7, 8, 12, 13, 128];

/// Sessions 1 and 2; session 1 has asked, or not.
fn setups() -> Vec<Vec<Event>> {
    let asks = deliver(0, message(7, 0, message_id(0), b"?"));
    let clear = deliver(1, header(19, 0, 0, 0));
    let overlap = [clear.clone(), deliver(0, header(8, 1, 0, 0))];
    let too_large = |connection| deliver(connection, header(6, 0, message_id(1), 1025));
    let asked = |then: &[Event]| [std::slice::from_ref(&asks), then].concat();
    let all = [
        vec![],
        asked(&[]),
        asked(&[answer(1, b"part", 0)]),
        asked(&[answer(1, b"all", 1)]),
        asked(&[lock(3, b"", 0)]),
        asked(&[too_large(0), deliver(0, vec![0; 1000])]),
        asked(&[too_large(1)]),
        asked(&[clear]),
        [&overlap[..], &asked(&[])].concat(),
    ];
    let two = [session(0, 1, 1), session(2, 3, 2)].concat();
    all.map(|then| [&two[..], &then].concat()).to_vec()
}

/// Unread bytes: a header of every type, and variations of some.
fn unread() -> Vec<Vec<u8>> {
    let number = message_id(1);
    let mut shown: Vec<Vec<u8>> = (0..=255).map(|kind| header(kind, 0, number, 0)).collect();
    for kind in KINDS {
        for code in [0, 1, 255] {
            for length in [0, 3, 1024, 1025, u64::MAX] {
                let bytes = [header(kind, code, number, length), b"abc".to_vec()].concat();
                shown.extend([0, 2, 15, 16, 17, 19].map(|part| bytes[..part].to_vec()));
            }
        }
        for (place, byte) in [(0, b'h'), (1, b'T')] {
            let mut bytes = header(kind, 0, number, 0);
            bytes[place] = byte;
            shown.push(bytes);
        }
    }
    shown
}

/// What an answer leaves behind, with a message that tells of its delivery or does not.
fn probes(rmt_delivered: u8) -> [Event; 6] {
    [
        deliver(1, header(21, 0, message_id(0), 0)),
        answer(1, b"again", 1),
        deliver(0, message(6, rmt_delivered, message_id(1), b"x")),
        deliver(0, message(7, 0, message_id(2), b"?")),
        answer(1, b"second", 1),
        deliver(1, header(21, 1, message_id(1), 0)),
    ]
}

/// Returns the events run.
pub fn check(pair: Pair) -> Result<usize, Failed> {
    let mut count = 0;
    for setup in setups() {
        let failed = |before: &[Event], list: &[Event], found| {
            Failed::after(before, list, found, "interrupts")
        };
        let mut ready = Bout::new(pair, BENCH);
        let ran = ready.run(&setup);
        ran.map_err(|found| failed(&[], &setup, found))?;
        let mut bout = Bout::new(pair, BENCH);
        for shown in unread() {
            for (payload, end, rmt_delivered) in
                [(1, 1, 0), (1, 1, 1), (1, 0, 0), (1025, 1, 0), (0, 255, 1)]
            {
                let beside = answer_beside(1, &vec![b'x'; payload], end, &shown[..]);
                let list = [&[beside][..], &probes(rmt_delivered)].concat();
                bout.restart_from(&ready);
                let ran = bout.run(&list);
                ran.map_err(|found| failed(&setup, &list, found))?;
                count += list.len();
            }
        }
    }
    Ok(count)
}
