//! Messages and events that lists are made of.

use reference::Event;

pub use reference::compose::{answer, answer_beside, clock, cut, deliver, header, message, ROOM};

/// Opens a connection and sends Initialize on it.
pub fn half_open(synchronous: u32) -> [Event; 2] {
    let connection = synchronous;
    [
        Event::Open { connection },
        deliver(connection, message(0, 0, 0x0100_5858, b"hislip0")),
    ]
}

/// Opens a session that will get this number.
pub fn session(synchronous: u32, asynchronous: u32, number: u32) -> Vec<Event> {
    let mut events = half_open(synchronous).to_vec();
    let connection = asynchronous;
    events.push(Event::Open { connection });
    events.push(deliver(connection, message(17, 0, number, b"")));
    events
}

pub fn lock(asynchronous: u32, string: &[u8], timeout: u32) -> Event {
    deliver(asynchronous, message(4, 1, timeout, string))
}

/// The MessageID of a program's message, counted from 0.
pub fn message_id(count: u32) -> u32 {
    0xffff_ff00_u32.wrapping_add(count.wrapping_mul(2))
}

/// What a release names if its program has sent no message.
pub const BEFORE_FIRST: u32 = 0xffff_fefe;

/// A release of a program that has sent no message.
pub fn release(asynchronous: u32) -> Event {
    release_after(asynchronous, BEFORE_FIRST)
}

/// A release that names this message.
pub fn release_after(asynchronous: u32, number: u32) -> Event {
    deliver(asynchronous, message(4, 0, number, b""))
}
