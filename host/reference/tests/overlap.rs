//! Q-1, sentence by sentence: overlap mode.

mod common;

use common::*;
use reference::{Mode, Outcome, Refusal};

const AVAILABLE: u8 = 16;

/// A session of a server that prefers overlap mode.
fn overlap() -> (Bench, Client) {
    let mut bench = Bench::preferring(Mode::Overlap);
    let client = bench.session_on(0, 1);
    (bench, client)
}

/// A clear whose DeviceClearComplete has this code; the codes of its two acknowledgements.
fn clear(bench: &mut Bench, client: Client, code: u8) -> (u8, u8) {
    let begun = bench.send(client.asynchronous, CLEAR, 0, b"").frames;
    let ended = bench.send(client.sync, CLEARED, code, b"").frames;
    assert_eq!((begun[0].kind, ended[0].kind), (23, 9));
    assert_eq!((begun.len(), ended.len()), (1, 1));
    (begun[0].code, ended[0].code)
}

fn numbers(bench: &mut Bench, ends: &[bool]) -> Vec<(u8, u32)> {
    let mut number = |end: &bool| {
        let sent = bench.answer(1, b"x", *end).expect("not refused");
        (sent[0].kind, sent[0].parameter)
    };
    ends.iter().map(&mut number).collect()
}

fn status_after(bench: &mut Bench, client: Client, code: u8, number: u32) -> u8 {
    let query = message(QUERY, code, number, b"");
    bench.deliver(client.asynchronous, &query).frames[0].code
}

#[test]
fn the_preference_is_told_and_a_session_starts_so() {
    for (mode, code) in [(Mode::Synchronized, 0), (Mode::Overlap, 1)] {
        let mut bench = Bench::preferring(mode);
        bench.open(0);
        let opened = bench.deliver(0, &message(0, 0, 0x0100_4141, b""));
        assert_eq!(opened.frames, [sent(0, 1, code, 0x0100_0001)]);
        bench.open(1);
        bench.deliver(1, &message(17, 0, 1, b""));
        let asked = bench.answer(1, b"", true).err();
        assert_eq!(asked.is_none(), mode == Mode::Overlap);
    }
}

#[test]
fn type_23_carries_the_preference_and_type_9_what_was_asked() {
    for (mode, preference) in [(Mode::Synchronized, 0), (Mode::Overlap, 1)] {
        let mut bench = Bench::preferring(mode);
        let a = bench.session_on(0, 1);
        for (code, granted) in [(1, 1), (0, 0), (3, 1), (2, 0), (255, 1), (254, 0)] {
            assert_eq!(clear(&mut bench, a, code), (preference, granted));
        }
    }
}

#[test]
fn answers_are_counted_from_ffffff00_by_two_and_wrap() {
    let (mut bench, _) = overlap();
    let first = [(6, FIRST), (7, FIRST + 2), (7, FIRST + 4), (6, FIRST + 6)];
    assert_eq!(numbers(&mut bench, &[false, true, true, false]), first);
    let rest = numbers(&mut bench, &[true; 126]);
    assert_eq!(rest[123..], [(7, u32::MAX - 1), (7, 0), (7, 2)]);
}

#[test]
fn nothing_need_be_asked_and_a_question_changes_nothing() {
    let (mut bench, a) = overlap();
    bench.ask(a);
    let expected = [(7, FIRST), (7, FIRST + 2)];
    assert_eq!(numbers(&mut bench, &[true, true]), expected);
}

#[test]
fn refusal_5_exactly_to_a_session_half_open_or_in_a_clear() {
    let mut bench = Bench::preferring(Mode::Overlap);
    bench.half_open(0);
    let nothing = Err(Refusal::NothingAsked);
    assert_eq!(bench.unchanged(|bench| bench.answer(1, b"", true)), nothing);
    bench.open(1);
    bench.deliver(1, &message(17, 0, 1, b""));
    assert!(bench.answer(1, b"", true).is_ok());
    bench.send(1, CLEAR, 0, b"");
    assert_eq!(bench.unchanged(|bench| bench.answer(1, b"", true)), nothing);
    bench.send(0, CLEARED, 1, b"");
    assert!(bench.answer(1, b"", true).is_ok());
    let long = bench.answer(1, &[0; 1025], true);
    assert_eq!(long, Err(Refusal::AnswerTooLong));
    assert_eq!(bench.answer(2, b"", true), Err(Refusal::NoSession));
}

#[test]
fn message_available_by_the_querys_number() {
    let (mut bench, a) = overlap();
    for number in [0, FIRST - 2, FIRST] {
        assert_eq!(status_after(&mut bench, a, 0, number), 0, "nothing sent");
    }
    numbers(&mut bench, &[false, true]);
    for code in [0, 1] {
        assert_eq!(status_after(&mut bench, a, code, FIRST), AVAILABLE);
        assert_eq!(status_after(&mut bench, a, code, FIRST + 2), 0);
        assert_eq!(status_after(&mut bench, a, code, FIRST + 4), AVAILABLE);
    }
    bench.deliver(a.sync, &message(DATA_END, 1, 0, b""));
    assert_eq!(status_after(&mut bench, a, 0, FIRST), AVAILABLE);
}

#[test]
fn a_clear_resets_the_count_and_message_available() {
    let (mut bench, a) = overlap();
    numbers(&mut bench, &[true, true, true]);
    bench.send(a.asynchronous, CLEAR, 0, b"");
    assert_eq!(status_after(&mut bench, a, 0, 0), 0, "in the clear");
    bench.send(a.sync, CLEARED, 1, b"");
    assert_eq!(status_after(&mut bench, a, 0, 0), 0);
    assert_eq!(numbers(&mut bench, &[true]), [(7, FIRST)]);
}

#[test]
fn the_other_mode_begins_with_nothing_asked_or_available() {
    let (mut bench, a) = overlap();
    bench.ask(a);
    numbers(&mut bench, &[true]);
    assert_eq!(clear(&mut bench, a, 0), (1, 0));
    assert_eq!(bench.answer(1, b"", true), Err(Refusal::NothingAsked));
    assert_eq!(status_after(&mut bench, a, 0, 0), 0);
    bench.send(a.sync, DATA, 0, b"");
    let number = bench.ask(a);
    assert_eq!(numbers(&mut bench, &[true]), [(7, number)]);
    assert_eq!(status_after(&mut bench, a, 0, number), AVAILABLE);
    assert_eq!(clear(&mut bench, a, 1), (1, 1));
    assert_eq!(status_after(&mut bench, a, 0, 0), 0);
    assert_eq!(numbers(&mut bench, &[true]), [(7, FIRST)]);
}

#[test]
fn sessions_have_modes_of_their_own_and_new_ones_the_preferred_one() {
    let (mut bench, a) = overlap();
    let b = bench.session_on(2, 3);
    clear(&mut bench, a, 0);
    assert_eq!(bench.answer(1, b"", true), Err(Refusal::NothingAsked));
    assert!(bench.answer(2, b"", true).is_ok());
    bench.cut(b.sync);
    let c = bench.session_on(2, 3);
    let sent = bench.answer(c.number.into(), b"", true);
    assert_eq!(sent.expect("overlap")[0].parameter, FIRST);
}

#[test]
fn locks_do_not_know_the_mode() {
    let (mut bench, a) = overlap();
    let b = bench.session_on(2, 3);
    assert_eq!(bench.lock(a, b"", 0), Some(1));
    assert_eq!(bench.send(b.sync, DATA, 0, b""), held());
    bench.lock(b, b"", 100);
    let seen = bench.release_after(a, FIRST);
    assert_eq!(seen, acted(a, 16, &[]), "it stands");
    let data = bench.deliver(a.sync, &message(DATA, 0, FIRST, b""));
    assert_eq!(data.outcome, Outcome::ActedOn);
    assert_eq!(data.frames, [released(a, 1), granted(b)]);
}
