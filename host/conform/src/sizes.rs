//! Answers and lock strings of every size, and connections of every number, around every limit.

use reference::limits::{CONNECTIONS, LOCK_STRING, SESSIONS};
use reference::{Event, Fresh, Mode};

use crate::bout::{check_list, Failed, Pair, BENCH};
use crate::messages::{
    answer, cut, deliver, half_open, lock, message, message_id, release, release_after, session,
};

/// What a client may announce as its size.
const CLIENT_SIZES: [u64; 7] = [0, 1, 5, 1023, 1024, 1025, u64::MAX];

/// The string with another last byte.
fn but_the_last(string: &[u8]) -> Vec<u8> {
    let mut other = string.to_vec();
    if let Some(last) = other.last_mut() {
        *last = b'K';
    }
    other
}

/// A session on every two connections, so that all are in use; each shares the lock, and releases it.
/// Numbers from the first that is refused on, and far ones. Then every connection is cut and opens
/// again, every second time for a session too many.
fn numbers() -> Vec<Event> {
    let mut list = Vec::new();
    for (number, synchronous) in (1..=SESSIONS as u32).zip((0..).step_by(2)) {
        list.extend(session(synchronous, synchronous + 1, number));
        list.push(lock(synchronous + 1, b"all", 0));
        list.push(deliver(synchronous, message(7, 0, message_id(0), b"?")));
        list.push(answer(number, b"x", 1));
    }
    let first = CONNECTIONS as u32;
    for connection in (first..first + 8).chain([127, 128, 255, 256, 1 << 16, 1 << 31, u32::MAX]) {
        list.extend(half_open(connection));
        list.push(cut(connection));
    }
    for synchronous in (0..first).step_by(2) {
        list.push(deliver(synchronous + 1, message(24, 0, 0, b"")));
        list.push(release_after(synchronous + 1, message_id(0)));
    }
    for connection in 0..first {
        list.push(cut(connection));
        list.extend(half_open(connection));
    }
    list
}

pub fn list() -> Vec<Event> {
    let mut list = session(0, 1, 1);
    let mut numbers = (0..).map(message_id);
    let mut next = || numbers.next().unwrap_or_default();
    for size in 0..=1030 {
        let payload = vec![b'7'; size];
        list.push(deliver(0, message(7, 0, next(), b"?")));
        list.push(answer(1, &payload, 0));
        list.push(answer(1, &payload, 1));
    }
    let mut last = 0;
    for announced in CLIENT_SIZES {
        list.push(deliver(1, message(15, 0, 0, &announced.to_be_bytes())));
        for size in [0, 1, 2, 5, 6, 1022, 1023, 1024, 1025, 1026] {
            last = next();
            list.push(deliver(0, message(12, 0, last, b"")));
            list.push(answer(1, &vec![b'7'; size], (announced % 3) as u8));
            list.push(answer(1, &vec![b'8'; size], 1));
        }
    }
    list.extend(session(2, 3, 2));
    for length in (0..=LOCK_STRING + 6).chain([1023, 1024]) {
        let string = vec![b'k'; length];
        list.push(lock(1, &string, 0));
        list.push(lock(3, &string, 0));
        list.push(lock(3, &vec![b'k'; length + 1], 0));
        list.push(lock(3, &but_the_last(&string), 0));
        for _ in 0..2 {
            list.extend([release_after(1, last), release(3)]);
        }
    }
    for length in 0..=1030 {
        list.push(deliver(0, message(6, 0, next(), &vec![b'd'; length])));
        if length > 1024 {
            list.push(deliver(0, vec![b'd'; length]));
        }
    }
    list
}

/// In both modes; in overlap mode the answers' numbers wrap. Returns the events run.
pub fn check(pair: Pair) -> Result<usize, Failed> {
    let mut count = 0;
    for prefers in [Mode::Synchronized, Mode::Overlap] {
        let fresh = Fresh { prefers, ..BENCH };
        count += check_list(pair, fresh, "sizes", &list())?;
        count += check_list(pair, fresh, "sizes", &numbers())?;
    }
    Ok(count)
}
