//! Messages and events put together, for lists and tests. Written apart from `wire`, so that a wrong
//! reader is not fed by a writer with the same mistake.

use crate::event::Event;
use crate::watch::Watch;

/// Length of the output buffer that most events lend.
pub const ROOM: usize = 2048;

pub fn header(kind: u8, code: u8, parameter: u32, length: u64) -> Vec<u8> {
    let mut bytes = Vec::with_capacity(16);
    bytes.extend([b'H', b'S', kind, code]);
    bytes.extend(parameter.to_be_bytes());
    bytes.extend(length.to_be_bytes());
    bytes
}

pub fn message(kind: u8, code: u8, parameter: u32, payload: &[u8]) -> Vec<u8> {
    let mut bytes = header(kind, code, parameter, payload.len() as u64);
    bytes.extend(payload);
    bytes
}

pub fn deliver(connection: u32, bytes: impl Into<Vec<u8>>) -> Event {
    Event::Deliver {
        connection,
        bytes: bytes.into(),
        room: ROOM,
    }
}

pub fn cut(connection: u32) -> Event {
    Event::Cut {
        connection,
        room: ROOM,
    }
}

pub fn clock(milliseconds: u64) -> Event {
    Event::Clock {
        milliseconds,
        room: ROOM,
    }
}

/// An answer while nothing is unread.
pub fn answer(session: u32, payload: &[u8], end: u8) -> Event {
    answer_beside(session, payload, end, [])
}

/// An answer while these synchronous bytes are unread.
pub fn answer_beside(session: u32, payload: &[u8], end: u8, shown: impl Into<Vec<u8>>) -> Event {
    Event::Answer {
        session,
        payload: payload.to_vec(),
        end,
        shown: shown.into(),
        room: ROOM,
    }
}

pub fn watch(session: u32, watch: Watch) -> Event {
    Event::Watch { session, watch }
}

/// A list of allowed commands, each ended by a newline.
pub fn patterns<T: AsRef<[u8]>>(list: &[T]) -> Event {
    let ended = |pattern: &T| [pattern.as_ref(), b"\n"].concat();
    Event::Patterns {
        text: list.iter().flat_map(ended).collect(),
    }
}

/// A block of readings, with the shortest count.
pub fn block(readings: &[f32]) -> Vec<u8> {
    let floats: Vec<u8> = readings.iter().flat_map(|one| one.to_be_bytes()).collect();
    let count = floats.len().to_string();
    let mut bytes = format!("#{}{count}", count.len()).into_bytes();
    bytes.extend(floats);
    bytes
}
