//! A morning at the bench, as a list of events and as a journal.
#![allow(dead_code)]

pub mod stored;

use reference::compose::{
    answer, answer_beside, block, clock, cut, deliver, header, message, patterns, watch,
};
use reference::journal::{layout, reader, Keeping, Kept, Recorded, Writer};
use reference::verifier::{Fault, Verdict};
use reference::{Event, Fresh, Reply, Server, Single, Subject, Watch};

const ROOM: usize = 1 << 20;

pub fn session(number: u32, connection: u32) -> Vec<Event> {
    let other = connection + 1;
    vec![
        Event::Open { connection },
        deliver(connection, message(0, 0, 0x0100_4141, b"hislip0")),
        Event::Open { connection: other },
        deliver(other, message(17, 0, number, b"")),
    ]
}

fn lock(connection: u32, timeout: u32, string: &[u8]) -> Event {
    deliver(connection, message(4, 1, timeout, string))
}

/// Two sessions: locks, a held command, an answer in two parts, one withheld, errors, a time-out, closings.
pub fn morning() -> Vec<Event> {
    let question = message(7, 0, 0xffff_ff00, b"READ?");
    let next = message(7, 1, 0xffff_ff02, b"*IDN?");
    let mut events = [session(1, 0), session(2, 2)].concat();
    events.extend([
        clock(1000),
        lock(1, 0, b""),
        deliver(0, question.clone()),
        lock(3, 500, b""),
        deliver(2, question.clone()),
        answer(1, b"+1.0", 0),
        answer(1, b"E+1", 1),
        deliver(0, &next[..10]),
        Event::Status { status: 0x41 },
        deliver(1, message(21, 0, 0xffff_ff00, b"")),
        deliver(1, message(4, 0, 0xffff_ff00, b"")),
        deliver(2, question),
        answer_beside(2, b"7", 1, next.clone()),
        deliver(2, message(39, 0, 0, b"what")),
        deliver(0, header(6, 0, 0xffff_ff02, 5000)),
        deliver(0, [7; 1200]),
        clock(1500),
        lock(1, 300, b"cal"),
        clock(1900),
        cut(3),
        deliver(1, message(4, 1, 0, b"cal")),
        deliver(1, message(2, 0, 0, b"")),
    ]);
    events
}

/// A session, a question, and watches around the answers; the last but one trips.
pub fn watched() -> Vec<Event> {
    let mut events = session(1, 0);
    events.extend([
        deliver(0, message(7, 0, 0xffff_ff00, b"READ?")),
        watch(1, Watch::above(1.0)),
        answer(1, &block(&[1.0]), 0),
        watch(1, Watch::outside(-0.0, f32::INFINITY)),
        answer(1, &block(&[-1.0]), 0),
        watch(1, Watch::Off),
    ]);
    events
}

/// A command before a list is set, one that the list allows and one that it does not.
pub fn listed() -> Vec<Event> {
    let mut events = session(1, 0);
    events.extend([
        deliver(0, message(7, 0, 0xffff_ff00, b"SYST:ERR?")),
        patterns(&["*RST", "SYSTem:ERRor[:NEXT]?"]),
        deliver(0, message(7, 0, 0xffff_ff02, b"syst:err:next?")),
        deliver(0, message(7, 0, 0xffff_ff04, b"*IDN?")),
        patterns::<&str>(&[]),
        deliver(0, message(7, 0, 0xffff_ff06, b"*RST")),
    ]);
    events
}

/// A journal kept from a fresh server; every event finds room.
pub fn kept(fresh: Fresh, events: &[Event]) -> Vec<u8> {
    let mut keeping = Keeping::new(fresh, ROOM);
    for event in events {
        assert_eq!(keeping.event(event).1, Kept::Written);
    }
    keeping.close()
}

pub fn book() -> Vec<u8> {
    kept(Fresh::BENCH, &morning())
}

/// The journal of these bodies, closed.
pub fn closed(bodies: &[Vec<u8>]) -> Vec<u8> {
    let mut book = vec![0; ROOM];
    let mut writer = Writer::default();
    for body in bodies {
        assert_eq!(writer.append(&mut book, body), Kept::Written);
    }
    assert_eq!(writer.close(&mut book), Kept::Written);
    book.truncate(writer.written as usize);
    book
}

pub fn bodies(book: &[u8]) -> Vec<Vec<u8>> {
    reader::entries(book)
        .map(|found| found.body.to_vec())
        .collect()
}

/// Where each entry begins, and where the trailer does.
pub fn places(book: &[u8]) -> Vec<usize> {
    let mut places = vec![0];
    places.extend(reader::entries(book).map(|found| found.next));
    places
}

/// The first body that a fresh server would not have given, found by replaying the list plainly.
pub fn plain_verdict(bodies: &[Vec<u8>]) -> Verdict {
    let mut server = <Server as Subject>::new(Fresh::BENCH);
    let mut out = [0; 2048];
    for (place, body) in bodies.iter().enumerate() {
        let (recorded, frames) = layout::decode(body).expect("a layout");
        let reply = replayed(&mut server, recorded, &mut out);
        if reply.refusal != 0 || out[..reply.output as usize] != *frames {
            return wrong(place, Fault::Parcels);
        }
    }
    accepted(bodies.len())
}

fn replayed(server: &mut Server, recorded: Recorded, out: &mut [u8]) -> Reply {
    let server: &mut dyn Subject = server;
    match recorded {
        Recorded::Open { connection } => server.open(connection),
        Recorded::Deliver { connection, shown } => server.deliver(connection, &shown, out),
        Recorded::Cut { connection } => server.cut(connection, out),
        Recorded::Clock { milliseconds } => server.clock(milliseconds, out),
        Recorded::Answer {
            session,
            end,
            payload,
            shown,
        } => server.answer(session, &payload, end.into(), &shown, out),
        Recorded::Status { status } => {
            server.status(status);
            Reply::default()
        }
        Recorded::WatchOff { session } => server.watch(session, Watch::Off),
        Recorded::WatchAbove { session, limit } => {
            let limit = Single::of_bits(limit);
            server.watch(session, Watch::Above { limit })
        }
        Recorded::WatchOutside { session, low, high } => {
            let (low, high) = (Single::of_bits(low), Single::of_bits(high));
            server.watch(session, Watch::Outside { low, high })
        }
        Recorded::Patterns { text } => server.patterns(&text),
    }
}

pub fn wrong(entry: usize, fault: Fault) -> Verdict {
    Verdict::Wrong {
        entry: entry as u64,
        fault,
    }
}

pub fn accepted(entries: usize) -> Verdict {
    Verdict::Accepted {
        entries: entries as u64,
    }
}
