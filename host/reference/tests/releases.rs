//! Q-3, sentence by sentence: a release waits for the message it names.

mod common;

use common::*;
use reference::compose::header;
use reference::Outcome;

const SECOND: u32 = 0xffff_ff02;

/// A message of this type and number, acted on.
fn acts(bench: &mut Bench, client: Client, kind: u8, number: u32) -> Vec<Sent> {
    let seen = bench.deliver(client.sync, &message(kind, 0, number, b""));
    assert_eq!(
        (seen.outcome, seen.session),
        (Outcome::ActedOn, client.number)
    );
    seen.frames
}

/// A release that stands: acted on, no answer.
fn stands(bench: &mut Bench, client: Client, number: u32) {
    assert_eq!(bench.release_after(client, number), acted(client, 16, &[]));
}

fn clear(bench: &mut Bench, client: Client) -> Vec<Sent> {
    bench.send(client.asynchronous, CLEAR, 0, b"").frames
}

fn acknowledged(client: Client) -> Sent {
    sent(client.asynchronous, 23, 0, 0)
}

#[test]
fn it_acts_at_once_if_its_number_is_the_last_that_acted() {
    for kind in [DATA, DATA_END, TRIGGER] {
        let (mut bench, [a]) = Bench::with();
        bench.lock(a, b"", 0);
        acts(&mut bench, a, kind, FIRST);
        let seen = bench.release_after(a, FIRST);
        assert_eq!(seen.frames, [released(a, 1)]);
    }
}

#[test]
fn it_acts_at_once_if_none_has_acted_and_it_names_fffffefe() {
    let (mut bench, [a]) = Bench::with();
    bench.lock(a, b"k", 0);
    assert_eq!(
        bench.release_after(a, BEFORE_FIRST).frames,
        [released(a, 2)]
    );
    for other in [0, FIRST, BEFORE_FIRST - 2, u32::MAX] {
        let (mut bench, [a]) = Bench::with();
        bench.lock(a, b"k", 0);
        stands(&mut bench, a, other);
    }
}

#[test]
fn an_older_number_stands_and_so_does_fffffefe_after_a_message() {
    for number in [FIRST, BEFORE_FIRST] {
        let (mut bench, [a]) = Bench::with();
        bench.lock(a, b"", 0);
        acts(&mut bench, a, DATA, FIRST);
        acts(&mut bench, a, DATA, SECOND);
        stands(&mut bench, a, number);
    }
}

#[test]
fn it_stands_until_a_message_of_its_number_acts() {
    for kind in [DATA, DATA_END, TRIGGER] {
        let (mut bench, [a, b]) = Bench::with();
        bench.lock(a, b"", 0);
        bench.lock(b, b"", 500);
        stands(&mut bench, a, SECOND);
        assert_eq!(acts(&mut bench, a, DATA_END, FIRST), []);
        assert_eq!(bench.info(b), (1, 1), "still held");
        assert_eq!(bench.send(b.sync, DATA, 0, b""), held());
        assert_eq!(
            acts(&mut bench, a, kind, SECOND),
            [released(a, 1), granted(b)]
        );
        assert_eq!(bench.send(a.sync, DATA, 0, b""), held());
    }
}

#[test]
fn what_does_not_act_ends_nothing() {
    let (mut bench, [a, b]) = Bench::with();
    bench.lock(a, b"k", 0);
    bench.lock(b, b"k", 0);
    bench.lock(b, b"", 0);
    stands(&mut bench, a, FIRST);
    let data = message(DATA, 0, FIRST, b"");
    assert_eq!(bench.deliver(a.sync, &data), held());
    assert_eq!(bench.deliver(a.sync, &data[..15]), more_needed());
    assert_eq!(bench.release(b), (1, vec![]));
    assert_eq!(bench.deliver(b.sync, &data), acted(b, 16, &[]));
    let out_of_step = message(DATA, 0, SECOND, b"");
    assert_eq!(bench.deliver(a.sync, &out_of_step), error(a.sync, 0, 16));
    assert_eq!(
        bench.deliver(a.sync, &data),
        acted(a, 16, &[released(a, 2)])
    );
}

#[test]
fn a_release_of_a_message_answered_with_an_error_stands() {
    let refused = [
        (header(DATA, 0, FIRST, 1025), error(0, 4, 16)),
        (message(DATA, 2, FIRST, b""), error(0, 2, 16)),
        (message(TRIGGER, 0, FIRST, b"x"), error(0, 0, 17)),
    ];
    for (bytes, expected) in refused {
        let (mut bench, [a]) = Bench::with();
        bench.lock(a, b"", 0);
        stands(&mut bench, a, FIRST);
        assert_eq!(bench.deliver(a.sync, &bytes), expected);
        assert_eq!(bench.lock(a, b"k", 0), Some(3), "it goes on standing");
        assert_eq!(clear(&mut bench, a), [released(a, 1), acknowledged(a)]);
    }
}

#[test]
fn a_message_answered_with_an_error_is_not_the_last() {
    let (mut bench, [a]) = Bench::with();
    bench.lock(a, b"", 0);
    bench.deliver(a.sync, &message(DATA, 2, FIRST, b""));
    assert_eq!(
        bench.release_after(a, BEFORE_FIRST).frames,
        [released(a, 1)]
    );
}

#[test]
fn a_clear_lets_it_take_effect_after_the_requests_0_and_before_the_acknowledgement() {
    let (mut bench, [a, b, c]) = Bench::with();
    bench.lock(a, b"k", 0);
    bench.lock(b, b"k", 0);
    bench.lock(b, b"", 0);
    assert_eq!(bench.lock(a, b"", 500), None);
    bench.lock(c, b"other", 500);
    stands(&mut bench, a, FIRST);
    let told = clear(&mut bench, a);
    assert_eq!(told, [timed_out(a), released(a, 2), acknowledged(a)]);
    bench.release(b);
    assert_eq!(bench.release(b), (2, vec![granted(c)]));
}

#[test]
fn a_clear_that_frees_a_lock_grants_after_the_acknowledgement() {
    let (mut bench, [a, b]) = Bench::with();
    bench.lock(a, b"", 0);
    bench.lock(b, b"", 500);
    stands(&mut bench, a, FIRST);
    let told = clear(&mut bench, a);
    assert_eq!(told, [released(a, 1), acknowledged(a), granted(b)]);
}

/// A holds exclusive, a message of its acted, then a clear begins.
fn in_a_clear() -> (Bench, Client) {
    let (mut bench, [a]) = Bench::with();
    bench.lock(a, b"", 0);
    acts(&mut bench, a, DATA_END, FIRST);
    assert_eq!(clear(&mut bench, a), [acknowledged(a)]);
    (bench, a)
}

#[test]
fn the_last_number_does_not_outlive_a_clear() {
    let (mut bench, a) = in_a_clear();
    let seen = bench.release_after(a, BEFORE_FIRST);
    assert_eq!(seen.frames, [released(a, 1)]);
    let (mut bench, a) = in_a_clear();
    stands(&mut bench, a, FIRST);
    let completed = bench.send(a.sync, CLEARED, 0, b"").frames;
    assert_eq!(completed, [sent(a.sync, 9, 0, 0)], "it goes on standing");
    assert_eq!(acts(&mut bench, a, DATA, FIRST), [released(a, 1)]);
}

#[test]
fn a_message_ignored_in_a_clear_ends_nothing() {
    let (mut bench, [a]) = Bench::with();
    bench.lock(a, b"", 0);
    clear(&mut bench, a);
    stands(&mut bench, a, FIRST);
    let data = message(DATA, 0, FIRST, b"");
    assert_eq!(bench.deliver(a.sync, &data), ignored(16));
    assert_eq!(clear(&mut bench, a), [released(a, 1), acknowledged(a)]);
}

#[test]
fn a_closing_drops_it_unanswered() {
    let (mut bench, [a, b]) = Bench::with();
    bench.lock(a, b"", 0);
    bench.lock(b, b"", 500);
    stands(&mut bench, a, FIRST);
    assert_eq!(bench.cut(a.asynchronous), [granted(b)]);
    let a = bench.session_on(a.sync, a.asynchronous);
    bench.release(b);
    assert_eq!(acts(&mut bench, a, DATA, FIRST), [], "a new session");
}

#[test]
fn with_no_lock_held_it_is_3_at_once() {
    let (mut bench, [a]) = Bench::with();
    for number in [0, FIRST, BEFORE_FIRST] {
        assert_eq!(bench.release_after(a, number).frames, [released(a, 3)]);
    }
    assert_eq!(bench.lock(a, b"", 0), Some(1), "nothing stands");
}

#[test]
fn which_lock_it_frees_is_fixed_when_it_arrives() {
    let (mut bench, [a, b]) = Bench::with();
    bench.lock(a, b"k", 0);
    bench.lock(b, b"k", 0);
    bench.lock(b, b"", 0);
    assert_eq!(bench.lock(a, b"", 500), None);
    stands(&mut bench, a, FIRST);
    assert_eq!(bench.release(b), (1, vec![granted(a)]));
    assert_eq!(
        acts(&mut bench, a, DATA, FIRST),
        [released(a, 2)],
        "shared, though a holds exclusive by now"
    );
    assert_eq!(bench.info(a), (1, 2));
}

#[test]
fn exclusive_without_shared_beside_other_shared_holders_may_wait() {
    let (mut bench, [a, b]) = Bench::with();
    bench.lock(a, b"k", 0);
    bench.lock(b, b"k", 0);
    bench.lock(b, b"", 0);
    bench.lock(a, b"", 500);
    stands(&mut bench, a, FIRST);
    bench.release(b);
    acts(&mut bench, a, DATA, FIRST);
    assert_eq!(bench.lock(a, b"other", 500), None);
    assert_eq!(bench.lock(b, b"", 500), None, "all of them wait");
    assert_eq!(bench.clock(500), [timed_out(a), timed_out(b)]);
}

#[test]
fn a_further_lock_message_while_it_stands_gets_3() {
    let (mut bench, [a]) = Bench::with();
    bench.lock(a, b"k", 0);
    stands(&mut bench, a, FIRST);
    assert_eq!(bench.lock(a, b"", 500), Some(3));
    assert_eq!(bench.lock(a, b"k", 0), Some(3));
    assert_eq!(bench.release_after(a, FIRST).frames, [released(a, 3)]);
    assert_eq!(
        bench.release_after(a, BEFORE_FIRST).frames,
        [released(a, 3)]
    );
    let code = bench.send(a.asynchronous, LOCK, 2, b"");
    assert_eq!(code, error(a.asynchronous, 2, 16), "check 10 comes first");
    assert_eq!(acts(&mut bench, a, DATA, FIRST), [released(a, 2)]);
    assert_eq!(bench.lock(a, b"", 0), Some(1));
}

#[test]
fn other_sessions_go_on_while_it_stands() {
    let (mut bench, [a, b]) = Bench::with();
    bench.lock(a, b"k", 0);
    stands(&mut bench, a, FIRST);
    assert_eq!(bench.lock(b, b"other", 0), Some(0));
    assert_eq!(bench.lock(b, b"k", 0), Some(1));
    assert_eq!(acts(&mut bench, b, DATA, FIRST), []);
    assert_eq!(bench.info(b), (0, 2));
}

#[test]
fn the_longest_outputs_count_every_session() {
    let (mut bench, clients): (Bench, [Client; 16]) = Bench::with();
    bench.lock(clients[0], b"", 0);
    for client in &clients[1..] {
        bench.lock(*client, b"k", 100);
    }
    stands(&mut bench, clients[0], FIRST);
    let told = clear(&mut bench, clients[0]);
    assert_eq!(told.len(), 2 + 15);
    assert_eq!(
        told[..2],
        [released(clients[0], 1), acknowledged(clients[0])]
    );
}
