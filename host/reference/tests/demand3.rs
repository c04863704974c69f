//! The canonical history and the lock model by themselves: what must not be simplified in them.

use reference::compose::{clock, cut, deliver, header, message, patterns, watch};
use reference::history::{canonical, omitted, trimmed};
use reference::lock_model::{LockAnswer, LockModel};
use reference::{Event, Reply, Watch};

fn delivered(outcome: u64, session: u64, taken: u64) -> Reply {
    Reply {
        outcome,
        session,
        taken,
        ..Reply::default()
    }
}

#[test]
fn a_delivery_that_closed_is_kept_whole_though_it_took_nothing() {
    let event = deliver(0, [0; 30]);
    let reply = delivered(Reply::CLOSED, 1, 0);
    assert!(!omitted(&event, &reply));
    assert_eq!(trimmed(&event, &reply), event);
}

#[test]
fn a_too_large_message_is_kept_as_its_header() {
    let bytes = message(6, 0, 0, &[0; 1100]);
    let reply = delivered(Reply::ERROR_SENT, 0, 16);
    assert_eq!(
        trimmed(&deliver(0, bytes.clone()), &reply),
        deliver(0, &bytes[..16])
    );
}

#[test]
fn what_is_skipped_is_kept_and_bytes_not_taken_are_not() {
    let event = deliver(0, [7; 100]);
    let reply = delivered(Reply::SKIPPED, 0, 60);
    assert!(!omitted(&event, &reply));
    assert_eq!(trimmed(&event, &reply), deliver(0, [7; 60]));
}

#[test]
fn more_needed_held_and_refused_are_omitted_and_nothing_else() {
    let event = deliver(0, b"HS");
    for (outcome, expected) in [(0, true), (1, false), (2, true), (3, false), (4, false)] {
        assert_eq!(omitted(&event, &delivered(outcome, 0, 0)), expected);
    }
    for refusal in 1..=8 {
        assert!(omitted(&event, &Reply::refused(refusal)));
        assert!(omitted(&clock(3), &Reply::refused(refusal)));
    }
    // An accepted event that is no delivery has outcome 0 too.
    let watched = watch(1, Watch::above(1.0));
    let listed = patterns(&["*IDN?"]);
    let status = Event::Status { status: 0 };
    for event in [clock(3), cut(1), status, watched, listed] {
        assert!(!omitted(&event, &Reply::default()));
        assert_eq!(trimmed(&event, &Reply::default()), event);
    }
    let refused = Reply::refused(10);
    assert!(omitted(&watch(1, Watch::above(f32::NAN)), &refused));
    assert!(omitted(&patterns(&["a"]), &Reply::refused(11)));
}

#[test]
fn kept_events_know_their_place() {
    let list = [
        cut(1),
        clock(5),
        deliver(0, b""),
        Event::Status { status: 1 },
    ];
    let replies = [
        Reply::refused(1),
        Reply::default(),
        Reply::default(),
        Reply::default(),
    ];
    let kept = canonical(list.iter().zip(&replies));
    assert_eq!(kept, [(1, clock(5)), (3, Event::Status { status: 1 })]);
}

/// A lock model with sessions 1, 2, ... on connections 0 and 1, 2 and 3, ...
struct Fed {
    model: LockModel,
}

impl Fed {
    fn new(sessions: u32) -> Fed {
        let mut fed = Fed {
            model: LockModel::new(),
        };
        for number in 1..=sessions {
            let connection = 2 * (number - 1);
            fed.acted(connection, number, &message(0, 0, 0, b""));
            fed.acted(connection + 1, number, &message(17, 0, number, b""));
        }
        fed
    }

    fn feed(&mut self, event: &Event, reply: &Reply) -> Vec<(u32, u8)> {
        let mut answers = Vec::new();
        self.model.event(event, reply, &mut answers);
        let plain = |answer: &LockAnswer| (answer.connection, answer.code);
        answers.iter().map(plain).collect()
    }

    fn acted(&mut self, connection: u32, session: u32, bytes: &[u8]) -> Vec<(u32, u8)> {
        let reply = delivered(Reply::ACTED_ON, session.into(), bytes.len() as u64);
        self.feed(&deliver(connection, bytes), &reply)
    }

    fn lock(&mut self, session: u32, string: &[u8], timeout: u32) -> Vec<(u32, u8)> {
        let connection = 2 * session - 1;
        self.acted(connection, session, &message(4, 1, timeout, string))
    }

    /// A release that names this message.
    fn release_after(&mut self, session: u32, number: u32) -> Vec<(u32, u8)> {
        self.acted(2 * session - 1, session, &message(4, 0, number, b""))
    }

    fn release(&mut self, session: u32) -> Vec<(u32, u8)> {
        self.release_after(session, 0xffff_fefe)
    }

    /// A Data, DataEND or Trigger that acted.
    fn sent(&mut self, session: u32, kind: u8, number: u32) -> Vec<(u32, u8)> {
        self.acted(2 * session - 2, session, &message(kind, 0, number, b""))
    }
}

#[test]
fn the_lock_model_reads_no_byte_that_was_not_taken() {
    let mut fed = Fed::new(1);
    let two = [message(24, 0, 0, b""), message(4, 1, 0, b"")].concat();
    let reply = delivered(Reply::ACTED_ON, 1, 16);
    assert_eq!(fed.feed(&deliver(1, two), &reply), []);
    assert_eq!(fed.model.info(), (0, 0));
    let with_more = [message(4, 1, 0, b""), message(24, 0, 0, b"")].concat();
    assert_eq!(fed.feed(&deliver(1, with_more), &reply), [(1, 1)]);
    assert_eq!(fed.model.info(), (1, 1), "exclusive: the string is empty");
}

#[test]
fn a_refused_call_changes_nothing_in_the_lock_model() {
    let mut fed = Fed::new(2);
    fed.lock(1, b"", 0);
    assert_eq!(fed.lock(2, b"", 10), []);
    assert_eq!(fed.feed(&clock(50), &Reply::refused(3)), []);
    assert_eq!(fed.feed(&cut(0), &Reply::refused(7)), []);
    assert_eq!(fed.feed(&clock(9), &Reply::default()), []);
    assert_eq!(fed.feed(&clock(10), &Reply::default()), [(3, 0)]);
}

#[test]
fn a_closing_goes_by_the_connection_and_answers_nothing_of_its_own() {
    let mut fed = Fed::new(3);
    fed.lock(1, b"k", 0);
    fed.lock(1, b"", 0);
    fed.lock(2, b"k", 10);
    fed.lock(3, b"", 10);
    assert_eq!(
        fed.feed(&cut(9), &Reply::default()),
        [],
        "a connection without a session"
    );
    let closed = delivered(Reply::CLOSED, 2, 0);
    assert_eq!(fed.feed(&deliver(2, header(2, 0, 0, 0)), &closed), []);
    assert_eq!(
        fed.feed(&cut(1), &Reply::default()),
        [(5, 1)],
        "the other channel's cut"
    );
    let count = fed.model.count();
    assert_eq!((count.granted, count.released, count.dropped), (3, 0, 2));
    assert_eq!(fed.model.view().held(), 1);
    assert_eq!(fed.release(3), [(5, 1)]);
    assert_eq!(fed.model.count().released, 1);
}

#[test]
fn access_by_the_lock_models_holders() {
    let mut fed = Fed::new(3);
    let access = |fed: &Fed| [1, 2, 3].map(|session| fed.model.access(session));
    assert_eq!(access(&fed), [true, true, true]);
    fed.lock(1, b"k", 0);
    fed.lock(2, b"k", 0);
    assert_eq!(access(&fed), [true, true, false]);
    fed.lock(2, b"", 0);
    assert_eq!(access(&fed), [false, true, false]);
    assert_eq!(fed.release(2), [(3, 1)]);
    assert_eq!(fed.release(2), [(3, 2)]);
    assert_eq!(access(&fed), [true, false, false]);
}

#[test]
fn held_and_ignored_messages_are_nothing_to_the_lock_model() {
    let mut fed = Fed::new(2);
    fed.lock(1, b"", 0);
    let before = fed.model.view();
    for outcome in [
        Reply::HELD,
        Reply::IGNORED,
        Reply::ERROR_SENT,
        Reply::MORE_NEEDED,
    ] {
        let bytes = message(4, 1, 0, b"");
        let reply = delivered(outcome, 0, bytes.len() as u64);
        assert_eq!(fed.feed(&deliver(3, bytes), &reply), []);
    }
    assert_eq!(fed.model.view(), before);
}

#[test]
fn the_lock_model_keeps_a_standing_release_by_the_messages_it_is_fed() {
    let mut fed = Fed::new(2);
    fed.lock(1, b"k", 0);
    fed.lock(1, b"", 0);
    fed.lock(2, b"k", 50);
    assert_eq!(fed.release_after(1, 6), [], "it stands");
    assert_eq!(fed.model.info(), (1, 1), "the lock is still held");
    assert_eq!(fed.model.count().released, 0);
    assert_eq!(fed.sent(2, 7, 6), [], "another session's message");
    assert_eq!(fed.sent(1, 6, 4), [], "another number");
    for outcome in [
        Reply::HELD,
        Reply::IGNORED,
        Reply::ERROR_SENT,
        Reply::MORE_NEEDED,
    ] {
        let bytes = message(7, 0, 6, b"");
        let reply = delivered(outcome, 0, bytes.len() as u64);
        assert_eq!(fed.feed(&deliver(0, bytes), &reply), [], "it did not act");
    }
    assert_eq!(fed.sent(1, 12, 6), [(1, 1), (3, 1)]);
    assert_eq!(fed.model.count().released, 1);
    assert_eq!(fed.release_after(1, 4), [], "an older one than the last");
    assert_eq!(fed.lock(1, b"", 0), [(1, 3)]);
    assert_eq!(fed.acted(1, 1, &message(19, 0, 0, b"")), [(1, 2)]);
    assert_eq!(
        fed.release_after(1, 6),
        [(1, 3)],
        "nothing is held, so it does not stand"
    );
    let count = fed.model.count();
    assert_eq!((count.granted, count.released, count.dropped), (3, 2, 0));
    assert_eq!(fed.model.view().held(), 1);
}

#[test]
fn watches_and_patterns_are_nothing_to_the_lock_model() {
    let mut fed = Fed::new(2);
    fed.lock(1, b"", 0);
    fed.lock(2, b"", 50);
    let before = fed.model.view();
    for event in [watch(1, Watch::Off), patterns(&["*IDN?"])] {
        assert_eq!(fed.feed(&event, &Reply::default()), []);
    }
    assert_eq!(fed.model.view(), before);
}

#[test]
fn a_closing_drops_the_standing_release_unanswered() {
    let mut fed = Fed::new(2);
    fed.lock(1, b"", 0);
    fed.lock(2, b"", 50);
    assert_eq!(fed.release_after(1, 2), []);
    assert_eq!(fed.feed(&cut(0), &Reply::default()), [(3, 1)]);
    let count = fed.model.count();
    assert_eq!((count.released, count.dropped), (0, 1));
}
