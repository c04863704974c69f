//! Between the server's events and those of the layout.

use crate::compose::{watch, ROOM};
use crate::event::Event;
use crate::journal::layout::{Recorded, MOST_DELIVERED, MOST_SHOWN};
use crate::watch::{Single, Watch};

/// With a journal kept, the server sees no more than is recorded: the first 1,040 bytes of a delivery, the
/// first 16 shown with an answer.
pub fn recorded(event: &Event) -> Recorded {
    match event {
        Event::Open { connection } => Recorded::Open {
            connection: *connection,
        },
        Event::Deliver {
            connection, bytes, ..
        } => Recorded::Deliver {
            connection: *connection,
            shown: first(bytes, MOST_DELIVERED),
        },
        Event::Cut { connection, .. } => Recorded::Cut {
            connection: *connection,
        },
        Event::Clock { milliseconds, .. } => Recorded::Clock {
            milliseconds: *milliseconds,
        },
        Event::Answer {
            session,
            payload,
            end,
            shown,
            ..
        } => Recorded::Answer {
            session: *session,
            end: *end != 0,
            payload: payload.clone(),
            shown: first(shown, MOST_SHOWN),
        },
        Event::Status { status } => Recorded::Status { status: *status },
        Event::Watch { session, watch } => recorded_watch(*session, *watch),
        Event::Patterns { text } => Recorded::Patterns { text: text.clone() },
    }
}

fn recorded_watch(session: u32, watch: Watch) -> Recorded {
    match watch {
        Watch::Off => Recorded::WatchOff { session },
        Watch::Above { limit } => Recorded::WatchAbove {
            session,
            limit: limit.bits(),
        },
        Watch::Outside { low, high } => Recorded::WatchOutside {
            session,
            low: low.bits(),
            high: high.bits(),
        },
    }
}

fn first(bytes: &[u8], most: usize) -> Vec<u8> {
    bytes.iter().take(most).copied().collect()
}

/// The server's event for a recorded one, with room enough for any output.
pub fn replayable(recorded: Recorded) -> Event {
    let room = ROOM;
    match recorded {
        Recorded::Open { connection } => Event::Open { connection },
        Recorded::Deliver { connection, shown } => Event::Deliver {
            connection,
            bytes: shown,
            room,
        },
        Recorded::Cut { connection } => Event::Cut { connection, room },
        Recorded::Clock { milliseconds } => Event::Clock { milliseconds, room },
        Recorded::Answer {
            session,
            end,
            payload,
            shown,
        } => Event::Answer {
            session,
            payload,
            end: u8::from(end),
            shown,
            room,
        },
        Recorded::Status { status } => Event::Status { status },
        Recorded::WatchOff { session } => watch(session, Watch::Off),
        Recorded::WatchAbove { session, limit } => watch(session, above(limit)),
        Recorded::WatchOutside { session, low, high } => watch(session, outside(low, high)),
        Recorded::Patterns { text } => Event::Patterns { text },
    }
}

fn above(limit: u32) -> Watch {
    let limit = Single::of_bits(limit);
    Watch::Above { limit }
}

fn outside(low: u32, high: u32) -> Watch {
    let (low, high) = (Single::of_bits(low), Single::of_bits(high));
    Watch::Outside { low, high }
}
