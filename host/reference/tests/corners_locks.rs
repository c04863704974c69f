//! Corners of locks, output sizes and demand 3; the number in a name only orders them.

mod common;

use common::*;
use reference::compose::{clock, cut, deliver, header};
use reference::history::canonical;
use reference::lock_model::LockModel;
use reference::{Event, Reply, Server, Subject};

#[test]
fn item_45_granting_rule() {
    let (mut bench, [a, b]) = Bench::with();
    assert_eq!(bench.lock(a, b"k", 0), Some(1));
    assert_eq!(bench.lock(b, b"", 0), Some(0), "another holds shared");
    assert_eq!(bench.lock(b, b"k", 0), Some(1));
    assert_eq!(bench.lock(b, b"", 0), Some(1), "a shared holder may");
    assert_eq!(bench.lock(a, b"", 0), Some(0), "another holds exclusive");
}

#[test]
fn item_46_answers_in_order() {
    let (mut bench, [a, b]) = Bench::with();
    assert_eq!(bench.lock(a, &[b'x'; 257], 0), Some(3));
    assert_eq!(bench.lock(a, &[b'x'; 1024], 0), Some(3));
    assert_eq!(bench.lock(a, &[b'x'; 256], 0), Some(1));
    assert_eq!(bench.lock(a, b"y", 0), Some(3));
    assert_eq!(bench.lock(a, b"", 9), Some(1));
    assert_eq!(bench.lock(a, b"", 9), Some(3));
    assert_eq!(bench.lock(b, b"", 0), Some(0));
    assert_eq!(bench.lock(b, b"", 9), None);
    assert_eq!(bench.lock(b, b"", 0), Some(3), "one request at a time");
    assert_eq!(bench.lock(b, b"z", 9), Some(3));
}

#[test]
fn item_46_strings_are_bytes() {
    let (mut bench, [a, b]) = Bench::with();
    assert_eq!(bench.lock(a, &[b'x'; 256], 0), Some(1));
    let last = [&[b'x'; 255][..], b"y"].concat();
    assert_eq!(bench.lock(b, &last, 0), Some(0), "the last byte counts");
    assert_eq!(bench.lock(b, &last[..255], 0), Some(0), "a byte shorter");
    assert_eq!(bench.lock(b, &[b'x'; 256], 0), Some(1));
    assert_eq!(bench.release(a), (2, vec![]));
    assert_eq!(bench.release(b), (2, vec![]));
    assert_eq!(bench.lock(a, b"k\0", 0), Some(1));
    assert_eq!(bench.lock(b, b"k", 0), Some(0));
    assert_eq!(bench.lock(b, b"k\0\0", 0), Some(0));
    assert_eq!(bench.lock(b, b"k\0", 0), Some(1));
}

#[test]
fn item_47_against_table_22() {
    let (mut bench, [a, b]) = Bench::with();
    assert_eq!(bench.lock(a, b"", 0), Some(1));
    assert_eq!(
        bench.lock(a, b"k", 0),
        Some(1),
        "exclusive holder asks shared"
    );
    assert_eq!(
        bench.lock(b, b"k", 0),
        Some(0),
        "right key, but another is exclusive"
    );
}

#[test]
fn item_48_a_grantable_arrival_does_not_queue() {
    let (mut bench, [a, b, c]) = Bench::with();
    bench.lock(a, b"k", 0);
    assert_eq!(bench.lock(b, b"", 100), None);
    assert_eq!(bench.lock(c, b"k", 100), Some(1));
}

#[test]
fn item_49_deadlines() {
    let (mut bench, [a, b]) = Bench::with();
    bench.lock(a, b"", 0);
    bench.clock(7);
    assert_eq!(bench.lock(b, b"", 1), None);
    assert_eq!(bench.clock(7), []);
    assert_eq!(bench.clock(8), [timed_out(b)]);
    bench.clock((1 << 62) - 1);
    assert_eq!(bench.lock(b, b"", u32::MAX), None);
    assert_eq!(bench.clock(1 << 62), [], "never reached");
    assert_eq!(bench.release(a), (1, vec![granted(b)]));
}

#[test]
fn item_50_expired_answers_go_by_arrival() {
    let (mut bench, [a, b, c, d]) = Bench::with();
    bench.lock(a, b"", 0);
    bench.lock(b, b"", 300);
    bench.lock(c, b"", 100);
    bench.lock(d, b"", 400);
    assert_eq!(bench.clock(300), [timed_out(b), timed_out(c)]);
    assert_eq!(bench.clock(400), [timed_out(d)]);
}

#[test]
fn item_51_one_pass_leaves_nothing_grantable() {
    let (mut bench, [a, b, c, d]) = Bench::with();
    bench.lock(a, b"", 0);
    bench.lock(b, b"k", 100);
    bench.lock(c, b"other", 100);
    bench.lock(d, b"k", 100);
    assert_eq!(bench.release(a), (1, vec![granted(b), granted(d)]));
    assert_eq!(bench.info(a), (0, 2));
    bench.release(b);
    assert_eq!(bench.release(d), (2, vec![granted(c)]));
}

#[test]
fn item_52_events_that_free_no_lock_grant_nothing() {
    let (mut bench, [a, b]) = Bench::with();
    bench.lock(a, b"", 0);
    bench.lock(b, b"", 100);
    bench.ask(a);
    bench.open(9);
    assert_eq!(bench.clock(99), []);
    assert_eq!(bench.answer(1, b"", true).map(|frames| frames.len()), Ok(1));
    assert_eq!(bench.send(a.asynchronous, CLEAR, 0, b"").frames.len(), 1);
    assert_eq!(bench.cut(9), []);
}

#[test]
fn item_53_direct_replies_come_first() {
    let (mut bench, [a, b, c]) = Bench::with();
    bench.lock(a, b"", 0);
    bench.lock(b, b"k", 100);
    bench.lock(c, b"k", 100);
    let seen = bench.release_after(a, BEFORE_FIRST);
    let expected = [released(a, 1), granted(b), granted(c)];
    assert_eq!(seen.frames, expected);
}

#[test]
fn item_54_a_pass_follows_every_freeing() {
    let (mut bench, [a, b, c]) = Bench::with();
    bench.lock(a, b"k", 0);
    bench.lock(b, b"k", 0);
    bench.lock(c, b"", 100);
    assert_eq!(bench.release(a), (2, vec![]), "b still holds");
    assert_eq!(bench.cut(b.sync), [granted(c)]);
}

#[test]
fn item_55_the_order_of_requests_is_all_that_is_kept() {
    let lists = [0, 3].map(|useless| {
        let (mut bench, [a, b, c]) = Bench::with();
        bench.lock(a, b"", 0);
        bench.lock(b, b"", 100);
        for _ in 0..useless {
            bench.deliver(c.sync, b"HS");
            bench.send(c.sync, DATA, 0, b"");
        }
        bench.lock(c, b"", 100);
        bench.server
    });
    assert_eq!(lists[0], lists[1]);
}

#[test]
fn item_56_an_exclusive_holder_gets_the_shared_lock_at_once() {
    let (mut bench, [a, b]) = Bench::with();
    bench.lock(a, b"", 0);
    assert_eq!(bench.lock(a, b"k", 100), Some(1));
    assert_eq!(bench.lock(b, b"k", 100), None);
    assert_eq!(bench.release(a), (1, vec![granted(b)]));
}

#[test]
fn item_57_lock_info() {
    let (mut bench, [a, b, c]) = Bench::with();
    assert_eq!(bench.info(c), (0, 0));
    bench.lock(a, b"k", 0);
    bench.lock(b, b"k", 0);
    assert_eq!(bench.info(c), (0, 2));
    bench.lock(a, b"", 0);
    assert_eq!(bench.info(c), (1, 2), "each session once");
    assert_eq!(bench.info(a), (1, 2), "also to the holder");
}

#[test]
fn item_58_a_release_leaves_the_own_request_waiting() {
    let (mut bench, [a, b, c]) = Bench::with();
    bench.lock(a, b"k", 0);
    bench.lock(b, b"k", 0);
    bench.lock(b, b"", 0);
    assert_eq!(bench.lock(a, b"", 100), None);
    assert_eq!(bench.release(a), (2, vec![]));
    assert_eq!(bench.lock(c, b"k", 0), Some(0));
    assert_eq!(bench.release(b), (1, vec![]));
    assert_eq!(bench.release(b), (2, vec![granted(a)]));
}

/// All but the first of 32 sessions wait for the lock that the first holds.
fn storm() -> (Bench, [Client; 32]) {
    let (mut bench, clients) = Bench::with();
    bench.lock(clients[0], b"", 0);
    for client in &clients[1..] {
        assert_eq!(bench.lock(*client, b"k", 100), None);
    }
    (bench, clients)
}

#[test]
fn item_63_the_longest_outputs() {
    let length =
        |frames: &[Sent]| -> usize { frames.iter().map(|frame| 17 + frame.payload.len()).sum() };
    let (mut bench, clients) = storm();
    let closed = bench.deliver(clients[0].sync, &[0; 16]);
    assert_eq!(length(&closed.frames), 34 + 31 * 17);
    let (mut bench, clients) = storm();
    let released = bench.release_after(clients[0], BEFORE_FIRST);
    assert_eq!(length(&released.frames), 17 + 31 * 17);
    let (mut bench, clients) = storm();
    assert_eq!(length(&bench.cut(clients[0].sync)), 31 * 17);
    let (mut bench, clients) = storm();
    assert_eq!(length(&bench.clock(100)), 31 * 17);
    bench.ask(clients[0]);
    let answer = bench.answer(1, &[1; 1024], true).expect("asked");
    assert_eq!(length(&answer), 1041);
}

#[test]
fn item_65_what_is_omitted_changes_nothing() {
    let (mut bench, [a, b]) = Bench::with();
    bench.lock(a, b"", 0);
    bench.lock(b, b"", 100);
    bench.unchanged(|bench| {
        assert_eq!(bench.send(b.sync, DATA, 1, b"x"), held());
        assert_eq!(bench.deliver(b.sync, &header(DATA, 0, 0, 3)), more_needed());
        bench.try_clock(u64::MAX).unwrap_err();
    });
}

type Log = Vec<(Reply, Vec<u8>)>;

fn run<'a>(list: impl Iterator<Item = &'a Event>) -> (Server, Log) {
    let mut server = Server::new(0x4141);
    let mut out = [0; 2048];
    let mut log = Log::new();
    for event in list {
        let reply = server.apply(event, &mut out[..event.room()]);
        log.push((reply, out[..reply.output as usize].to_vec()));
    }
    (server, log)
}

/// Runs a list, and its canonical history; both must leave the same server.
fn both_leave_the_same(list: &[Event]) {
    let (server, log) = run(list.iter());
    let kept = canonical(list.iter().zip(log.iter().map(|(reply, _)| reply)));
    let (again, short_log) = run(kept.iter().map(|(_, event)| event));
    assert_eq!(again, server);
    let originals = kept.iter().map(|(place, _)| log[*place].clone());
    assert_eq!(originals.collect::<Log>(), short_log);
    the_lock_model_agrees(list, &log, &server);
}

fn the_lock_model_agrees(list: &[Event], log: &Log, server: &Server) {
    let mut model = LockModel::new();
    for (event, (reply, output)) in list.iter().zip(log) {
        let mut answers = Vec::new();
        model.event(event, reply, &mut answers);
        let sent: Vec<_> = reference::event::frames(output)
            .expect("whole frames")
            .iter()
            .filter(|frame| frame.kind == LOCKED)
            .map(|frame| (u32::from(frame.connection), frame.code))
            .collect();
        let modelled: Vec<_> = answers
            .iter()
            .map(|one| (one.connection, one.code))
            .collect();
        assert_eq!(modelled, sent);
    }
    assert_eq!(model.view(), server.lock_view());
    let count = model.count();
    let held = server.lock_view().held();
    assert_eq!(count.granted, count.released + count.dropped + held);
}

#[test]
fn demand_3_on_a_list_with_pieces_closings_and_remainders() {
    let two = [message(LOCK, 1, 0, b""), message(INFO, 0, 0, b"")].concat();
    let list = [
        Event::Open { connection: 0 },
        deliver(0, &message(0, 0, 0x0100_0000, b"hislip0")[..20]),
        deliver(0, message(0, 0, 0x0100_0000, b"hislip0")),
        Event::Open { connection: 0 },
        Event::Open { connection: 1 },
        deliver(1, message(17, 0, 1, b"")),
        deliver(1, two),
        Event::Open { connection: 2 },
        deliver(2, message(0, 0, 0, b"")),
        Event::Open { connection: 3 },
        deliver(3, message(17, 0, 2, b"")),
        deliver(3, message(LOCK, 1, 50, b"k")),
        deliver(2, message(DATA, 0, 0, b"held")),
        deliver(2, header(DATA, 0, 0, 5000)),
        deliver(2, [0; 40]),
        deliver(2, []),
        clock(49),
        clock(48),
        deliver(0, [0; 30]),
        deliver(3, message(LOCK, 1, 50, b"")),
        Event::Cut {
            connection: 2,
            room: 0,
        },
    ];
    both_leave_the_same(&list);
    for cut_after in 0..list.len() {
        both_leave_the_same(&[&list[..cut_after], &[cut(1)]].concat());
    }
}
