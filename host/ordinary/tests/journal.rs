//! The journals that the ordinary server keeps are the reference's, byte by byte.

#[path = "../../reference/tests/books/mod.rs"]
mod books;

use books::stored::OVERLAP;
use books::{listed, morning, watched};
use ordinary::journal::{self, Entry};
use ordinary::{Journal, Server};
use reference::journal::{reader, Keeping, Kept};
use reference::{Event, Fresh, Reply};

struct Kin {
    server: Server,
    journal: Journal,
    out: [u8; 2048],
}

impl Kin {
    fn event(&mut self, event: &Event) -> (Reply, Kept) {
        let Kin {
            server,
            journal,
            out,
        } = self;
        match event {
            Event::Open { connection } => server.keep_open(*connection, journal),
            Event::Deliver {
                connection, bytes, ..
            } => server.keep_deliver(*connection, bytes, out, journal),
            Event::Cut { connection, .. } => server.keep_cut(*connection, out, journal),
            Event::Clock { milliseconds, .. } => server.keep_clock(*milliseconds, out, journal),
            Event::Answer {
                session,
                payload,
                end,
                shown,
                ..
            } => server.keep_answer(*session, payload, *end, shown, out, journal),
            Event::Status { status } => (Reply::default(), server.keep_status(*status, journal)),
            Event::Watch { session, watch } => server.keep_watch(*session, *watch, journal),
            Event::Patterns { text } => server.keep_patterns(text, journal),
        }
    }
}

/// Both on the same events, in books with so much room; how many entries found none.
fn beside(fresh: Fresh, events: &[Event], room: usize) -> usize {
    let mut kin = Kin {
        server: Server::new(fresh.vendor, fresh.prefers),
        journal: Journal::new(vec![0; room].into()).expect("room for a trailer"),
        out: [0; 2048],
    };
    let mut keeping = Keeping::new(fresh, room);
    let mut no_room = 0;
    for event in events {
        let told = keeping.event(event);
        assert_eq!(kin.event(event), told);
        assert_eq!(kin.journal.written(), keeping.written());
        no_room += usize::from(told.1 == Kept::NoRoom);
    }
    assert_eq!(kin.journal.close(), Kept::Written);
    assert_eq!(kin.journal.close(), Kept::Closed);
    let refused = Event::Open { connection: 64 };
    assert_eq!(kin.event(&refused).1, Kept::Written);
    let status = Event::Status { status: 1 };
    assert_eq!(kin.event(&status).1, Kept::Closed);
    assert_eq!(kin.journal.written(), keeping.close());
    read_again(kin.journal.written());
    no_room
}

/// The reader finds the reference's entries, with either sum.
fn read_again(book: &[u8]) {
    for at in 0..book.len() {
        let found = reader::forward(book, at).map(|found| Entry {
            body: at + 4,
            length: found.body.len(),
            next: found.next,
        });
        let told = [journal::forward, journal::forward_by_bytes].map(|reads| reads(book, at));
        assert_eq!(told, [found; 2], "{at}");
    }
}

#[test]
fn books_are_equal() {
    for events in [morning(), watched(), listed()] {
        for fresh in [Fresh::BENCH, OVERLAP] {
            assert_eq!(beside(fresh, &events, 1 << 16), 0);
            let full: usize = (12..1_000).map(|room| beside(fresh, &events, room)).sum();
            assert!(full > 1_000, "{full}");
        }
    }
}
