//! Q-10, sentence by sentence: numbers out of step.

mod common;

use common::*;
use reference::compose::header;
use reference::Outcome;

fn number(count: u32) -> u32 {
    FIRST.wrapping_add(2 * count)
}

#[test]
fn each_carries_the_number_expected() {
    let (mut bench, [a]) = Bench::with();
    for count in 0..300 {
        let kind = [DATA, DATA_END, TRIGGER][count as usize % 3];
        for wrong in [number(count) + 1, number(count).wrapping_sub(2), 0x1234] {
            let bytes = message(kind, 0, wrong, b"");
            assert_eq!(bench.deliver(a.sync, &bytes), error(a.sync, 0, 16));
        }
        let right = message(kind, 0, number(count), b"");
        assert_eq!(bench.deliver(a.sync, &right), acted(a, 16, &[]), "{count}");
    }
}

#[test]
fn a_wrong_number_changes_nothing_but_is_taken_whole() {
    let (mut bench, [a]) = Bench::with();
    let bytes = message(DATA_END, 1, number(1), b"late");
    let before = bench.server.clone();
    assert_eq!(bench.deliver(a.sync, &bytes), error(a.sync, 0, 20));
    assert_eq!(bench.server, before);
}

#[test]
fn a_refused_message_moves_the_expectation_if_it_carries_it() {
    let refused = [
        (header(DATA, 0, FIRST, 1025), error(0, 4, 16)),
        (message(DATA, 2, FIRST, b""), error(0, 2, 16)),
        (message(TRIGGER, 0, FIRST, b"x"), error(0, 0, 17)),
    ];
    for (bytes, expected) in refused {
        let too_large = expected == error(0, 4, 16);
        let (mut bench, [a]) = Bench::with();
        assert_eq!(bench.deliver(a.sync, &bytes), expected);
        if too_large {
            bench.deliver(a.sync, &[0; 1025]);
        }
        let next = message(DATA, 0, number(1), b"");
        assert_eq!(bench.deliver(a.sync, &next), acted(a, 16, &[]));
    }
}

#[test]
fn a_too_large_message_out_of_step_is_error_4_and_moves_nothing() {
    let (mut bench, [a]) = Bench::with();
    let too_large = header(TRIGGER, 0, number(1), 1025);
    assert_eq!(bench.deliver(a.sync, &too_large), error(a.sync, 4, 16));
    bench.deliver(a.sync, &[0; 1025]);
    let first = message(DATA, 0, FIRST, b"");
    assert_eq!(bench.deliver(a.sync, &first), acted(a, 16, &[]));
}

#[test]
fn a_too_large_message_without_access_moves_it() {
    let (mut bench, [a, b]) = Bench::with();
    bench.lock(b, b"", 0);
    bench.deliver(a.sync, &header(DATA, 0, FIRST, 1025));
    bench.deliver(a.sync, &[0; 1025]);
    bench.release(b);
    assert_eq!(bench.send(a.sync, DATA, 0, b""), acted(a, 16, &[]));
    assert_eq!(bench.next(a), number(2));
}

#[test]
fn only_data_data_end_and_trigger_on_the_synchronous_channel_count() {
    let (mut bench, [a]) = Bench::with();
    bench.deliver(a.asynchronous, &header(DATA, 0, FIRST, 1025));
    bench.deliver(a.asynchronous, &[0; 1025]);
    bench.deliver(a.asynchronous, &message(DATA, 0, FIRST, b""));
    bench.deliver(a.sync, &header(3, 0, FIRST, 1025));
    bench.deliver(a.sync, &[0; 1025]);
    bench.deliver(a.sync, &message(128, 0, FIRST, b""));
    let first = message(DATA, 0, FIRST, b"");
    assert_eq!(bench.deliver(a.sync, &first), acted(a, 16, &[]));
}

#[test]
fn held_comes_first_and_moves_nothing() {
    let (mut bench, [a, b]) = Bench::with();
    bench.lock(b, b"", 0);
    for count in [0, 1] {
        let bytes = message(DATA, 0, number(count), b"");
        assert_eq!(bench.deliver(a.sync, &bytes), held());
    }
    bench.release(b);
    let second = message(DATA, 0, number(1), b"");
    assert_eq!(bench.deliver(a.sync, &second), error(a.sync, 0, 16));
    assert_eq!(bench.send(a.sync, DATA, 0, b""), acted(a, 16, &[]));
}

#[test]
fn the_number_comes_before_the_code() {
    let (mut bench, [a]) = Bench::with();
    let bytes = message(DATA, 7, number(1), b"");
    assert_eq!(bench.deliver(a.sync, &bytes), error(a.sync, 0, 16));
}

#[test]
fn in_a_clear_nothing_is_tested_or_moved_and_it_begins_again() {
    let (mut bench, [a]) = Bench::with();
    bench.ask(a);
    bench.ask(a);
    bench.send(a.asynchronous, CLEAR, 0, b"");
    for wrong in [number(0), number(2), 9] {
        let bytes = message(DATA, 0, wrong, b"");
        assert_eq!(bench.deliver(a.sync, &bytes), ignored(16));
    }
    let too_large = header(DATA, 0, FIRST, 1025);
    assert_eq!(bench.try_deliver(0, &too_large), Ok(error(a.sync, 4, 16)));
    bench.deliver(a.sync, &[0; 1025]);
    let cleared = bench.send(a.sync, CLEARED, 0, b"");
    assert_eq!(cleared.outcome, Outcome::ActedOn);
    let third = message(DATA, 0, number(2), b"");
    assert_eq!(bench.deliver(a.sync, &third), error(a.sync, 0, 16));
    let first = message(DATA, 0, FIRST, b"");
    assert_eq!(bench.deliver(a.sync, &first), acted(a, 16, &[]));
}

#[test]
fn a_message_out_of_step_ends_no_release_and_asks_nothing() {
    let (mut bench, [a]) = Bench::with();
    bench.lock(a, b"", 0);
    let named = number(1);
    assert_eq!(bench.release_after(a, named).frames, []);
    let early = message(DATA_END, 0, named, b"?");
    assert_eq!(bench.deliver(a.sync, &early), error(a.sync, 0, 17));
    assert!(bench.answer(1, b"", true).is_err());
    bench.send(a.sync, DATA, 0, b"");
    let in_step = bench.deliver(a.sync, &early);
    assert_eq!(in_step, acted(a, 17, &[released(a, 1)]));
}
