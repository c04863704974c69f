//! Q-9, sentence by sentence: who holds what, since when.

mod common;

use common::*;
use reference::limits::SESSIONS;
use reference::{Mode, Outcome, Refusal, Row};

/// What rows hold that nobody has written.
const BLANK: Row = Row {
    session: 7777,
    exclusive: 7,
    shared: 7,
    granted_at: 7,
    grants: 7,
};

/// The rows; sees that asking changes nothing, that further rows stay as they are, and that every
/// shorter list is refused and left as it is.
fn rows(bench: &mut Bench) -> Vec<Row> {
    let mut list = [BLANK; SESSIONS + 2];
    bench.unchanged(|bench| {
        let count = bench.server.holders(&mut list).expect("long enough");
        assert!(list[count..].iter().all(|row| *row == BLANK));
        for length in 0..count {
            let mut short = vec![BLANK; length];
            let refused = bench.server.holders(&mut short);
            assert_eq!(refused, Err(Refusal::ListTooShort));
            assert!(short.iter().all(|row| *row == BLANK));
        }
        let mut just = vec![BLANK; count];
        assert_eq!(bench.server.holders(&mut just), Ok(count));
        assert_eq!(just, list[..count]);
        just
    })
}

/// A row: the locks are given as `"x"`, `"s"` or `"xs"`.
fn row(client: Client, locks: &str, granted_at: u64, grants: u64) -> Row {
    Row {
        session: client.number.into(),
        exclusive: locks.contains('x').into(),
        shared: locks.contains('s').into(),
        granted_at,
        grants,
    }
}

fn clear(bench: &mut Bench, client: Client) -> Vec<Sent> {
    bench.send(client.asynchronous, CLEAR, 0, b"").frames
}

#[test]
fn with_no_locks_there_are_no_rows() {
    let mut bench = Bench::new();
    assert_eq!(rows(&mut bench), []);
    bench.half_open(4);
    bench.session_on(0, 1);
    assert_eq!(rows(&mut bench), []);
    assert_eq!(
        bench.server.holders(&mut []),
        Ok(0),
        "an empty list will do"
    );
    assert_eq!(Refusal::ListTooShort as u64, 9);
}

#[test]
fn a_lock_granted_at_once_has_the_clock_of_its_request() {
    for (string, locks) in [(&b""[..], "x"), (b"k", "s")] {
        let (mut bench, [a, _b]) = Bench::with();
        bench.clock(40);
        assert_eq!(bench.lock(a, string, 0), Some(1));
        bench.clock(50);
        assert_eq!(rows(&mut bench), [row(a, locks, 40, 1)]);
    }
}

#[test]
fn a_lock_granted_later_has_the_clock_of_its_grant() {
    let (mut bench, [a, b]) = Bench::with();
    bench.clock(10);
    bench.lock(a, b"", 0);
    bench.clock(20);
    assert_eq!(bench.lock(b, b"", 1000), None);
    assert_eq!(
        rows(&mut bench),
        [row(a, "x", 10, 1)],
        "who waits has no row"
    );
    bench.clock(35);
    assert_eq!(bench.release(a), (1, vec![granted(b)]));
    bench.clock(36);
    assert_eq!(rows(&mut bench), [row(b, "x", 35, 1)]);
}

#[test]
fn a_grant_by_a_closing_has_its_clock() {
    let (mut bench, [a, b, c]) = Bench::with();
    bench.lock(a, b"", 0);
    bench.lock(b, b"k", 1000);
    bench.lock(c, b"k", 1000);
    bench.clock(77);
    assert_eq!(bench.cut(a.sync), [granted(b), granted(c)]);
    let both = [row(b, "s", 77, 1), row(c, "s", 77, 1)];
    assert_eq!(rows(&mut bench), both);
}

#[test]
fn both_locks_are_one_row_with_the_last_grant() {
    let (mut bench, [a, b]) = Bench::with();
    bench.clock(5);
    bench.lock(a, b"k", 0);
    bench.lock(b, b"k", 0);
    bench.clock(9);
    assert_eq!(bench.lock(a, b"", 0), Some(1));
    let both = [row(a, "xs", 9, 2), row(b, "s", 5, 1)];
    assert_eq!(rows(&mut bench), both);
    bench.clock(12);
    assert_eq!(bench.release(a).0, 1, "exclusive goes first");
    let shared = [row(a, "s", 9, 2), row(b, "s", 5, 1)];
    assert_eq!(rows(&mut bench), shared, "a release notes nothing");
}

#[test]
fn only_answers_1_to_requests_count() {
    let (mut bench, [a, b]) = Bench::with();
    bench.lock(a, b"", 0);
    bench.clock(3);
    // 3: held already, too long, nothing held; 0: at once, by the clock, by a device clear.
    assert_eq!(bench.lock(a, b"", 0), Some(3));
    assert_eq!(bench.lock(a, &[b'k'; 257], 0), Some(3));
    assert_eq!(bench.release(b), (3, vec![]));
    assert_eq!(bench.lock(b, b"", 0), Some(0));
    bench.lock(b, b"k", 4);
    assert_eq!(bench.lock(b, b"k", 4), Some(3), "it waits already");
    assert_eq!(bench.clock(7), [timed_out(b)]);
    bench.lock(b, b"k", 4);
    assert_eq!(clear(&mut bench, b)[0], timed_out(b));
    assert_eq!(rows(&mut bench), [row(a, "x", 0, 1)]);
    // 1 to a release is no grant.
    assert_eq!(bench.release(a), (1, vec![]));
    assert_eq!(bench.lock(b, b"k", 0), Some(1));
    bench.clock(8);
    assert_eq!(bench.lock(a, b"k", 0), Some(1));
    assert_eq!(rows(&mut bench), [row(a, "s", 8, 2), row(b, "s", 7, 1)]);
}

#[test]
fn the_number_goes_on_over_releases_and_clears() {
    let (mut bench, [a]) = Bench::with();
    for turn in 1..=20 {
        bench.clock(10 * turn);
        assert_eq!(bench.lock(a, b"k", 0), Some(1));
        assert_eq!(rows(&mut bench), [row(a, "s", 10 * turn, turn)]);
        clear(&mut bench, a);
        bench.send(a.sync, CLEARED, 0, b"");
        assert_eq!(rows(&mut bench), [row(a, "s", 10 * turn, turn)]);
        assert_eq!(bench.release(a).0, 2);
        assert_eq!(rows(&mut bench), []);
    }
}

#[test]
fn a_session_that_opens_begins_at_none() {
    let (mut bench, [a, b]) = Bench::with();
    bench.lock(b, b"k", 0);
    bench.clock(90);
    for _ in 0..3 {
        bench.lock(a, b"k", 0);
        bench.release(a);
    }
    bench.lock(a, b"k", 0);
    assert_eq!(rows(&mut bench), [row(a, "s", 90, 4), row(b, "s", 0, 1)]);
    bench.cut(a.asynchronous);
    assert_eq!(rows(&mut bench), [row(b, "s", 0, 1)]);
    bench.clock(95);
    let again = bench.session_on(a.sync, a.asynchronous);
    assert_eq!(rows(&mut bench), [row(b, "s", 0, 1)]);
    bench.lock(again, b"k", 0);
    let both = [row(b, "s", 0, 1), row(again, "s", 95, 1)];
    assert_eq!(rows(&mut bench), both, "by number, not by slot");
}

#[test]
fn a_standing_release_still_holds() {
    let (mut bench, [a, b]) = Bench::with();
    bench.clock(2);
    bench.lock(a, b"", 0);
    bench.lock(b, b"", 1000);
    bench.release_after(a, FIRST);
    bench.clock(6);
    assert_eq!(rows(&mut bench), [row(a, "x", 2, 1)]);
    assert_eq!(bench.lock(a, b"k", 0), Some(3), "a release stands");
    assert_eq!(rows(&mut bench), [row(a, "x", 2, 1)]);
    let acts = bench.send(a.sync, TRIGGER, 0, b"");
    assert_eq!(acts.frames, [released(a, 1), granted(b)]);
    assert_eq!(rows(&mut bench), [row(b, "x", 6, 1)]);
}

#[test]
fn a_grant_in_a_device_clear_is_noted() {
    let (mut bench, [a, b]) = Bench::with();
    bench.lock(a, b"k", 0);
    bench.release_after(a, FIRST);
    bench.lock(b, b"other", 1000);
    bench.clock(41);
    assert_eq!(clear(&mut bench, a).last(), Some(&granted(b)));
    assert_eq!(rows(&mut bench), [row(b, "s", 41, 1)]);
}

#[test]
fn one_look_grants_many_at_one_reading() {
    let (mut bench, clients) = Bench::with::<SESSIONS>();
    let [first, others @ ..] = clients;
    bench.lock(first, b"", 0);
    for other in others {
        assert_eq!(bench.lock(other, b"k", 5000), None);
    }
    bench.clock(4999);
    assert_eq!(bench.release(first).1.len(), SESSIONS - 1);
    let shared = others.map(|other| row(other, "s", 4999, 1));
    assert_eq!(rows(&mut bench), shared);
    assert_eq!(bench.lock(first, b"k", 0), Some(1));
    assert_eq!(bench.lock(others[3], b"", 0), Some(1));
    let all = rows(&mut bench);
    assert_eq!(all.len(), SESSIONS, "every session holds a lock");
    assert_eq!(all[0], row(first, "s", 4999, 2));
    assert_eq!(all[4], row(others[3], "xs", 4999, 2));
}

/// SessionIDs go round: a session opened later may have a lower number.
#[test]
fn rows_ascend_by_number_when_numbers_have_gone_round() {
    let mut bench = Bench::new();
    let low = bench.session_on(0, 1);
    for _ in 2..=65_533 {
        bench.half_open(2);
        bench.cut(2);
    }
    let high = bench.session_on(2, 3);
    let highest = bench.session_on(4, 5);
    let round = bench.session_on(6, 7);
    assert_eq!(
        [low, high, highest, round].map(|client| client.number),
        [1, 65_534, 65_535, 2]
    );
    for client in [highest, low, round, high] {
        bench.lock(client, b"k", 0);
    }
    let ascending = [low, round, high, highest].map(|client| row(client, "s", 0, 1));
    assert_eq!(rows(&mut bench), ascending);
}

#[test]
fn the_highest_reading_is_noted_in_either_mode() {
    for mode in [Mode::Synchronized, Mode::Overlap] {
        let mut bench = Bench::preferring(mode);
        let a = bench.session_on(62, 63);
        bench.clock(1 << 62);
        bench.lock(a, b"", u32::MAX);
        assert_eq!(rows(&mut bench), [row(a, "x", 1 << 62, 1)]);
        let held = bench.deliver(62, &message(DATA, 0, FIRST, b""));
        assert_eq!(held.outcome, Outcome::ActedOn);
        assert_eq!(rows(&mut bench), [row(a, "x", 1 << 62, 1)]);
    }
}
