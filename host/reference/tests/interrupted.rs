//! Q-5, sentence by sentence, and the four figures of 003's appendix A: interrupted queries.

mod common;

use common::*;
use reference::compose::header;
use reference::{Mode, Refusal};

const SECOND: u32 = 0xffff_ff02;
const AVAILABLE: u8 = 16;

/// AsyncInterrupted, then Interrupted, with this number.
fn interrupted(client: Client, number: u32) -> [Sent; 2] {
    [
        sent(client.asynchronous, 14, 0, number),
        sent(client.sync, 13, 0, number),
    ]
}

/// A session that has asked with its first message.
fn asked() -> (Bench, Client) {
    let (mut bench, [a]) = Bench::with();
    bench.ask(a);
    (bench, a)
}

/// A session whose question was answered, with END.
fn answered() -> (Bench, Client) {
    let (mut bench, a) = asked();
    bench.answer(1, b"1", true).expect("asked");
    (bench, a)
}

fn deliver(bench: &mut Bench, client: Client, kind: u8, code: u8, number: u32) -> Vec<Sent> {
    let seen = bench.deliver(client.sync, &message(kind, code, number, b""));
    assert_eq!(seen, acted(client, 16, &seen.frames));
    seen.frames
}

#[test]
fn a_header_that_begins_the_unread_bytes_withholds_the_end() {
    for kind in [DATA, DATA_END, TRIGGER] {
        for code in [0, 1, 7, 255] {
            for length in [0, 3, 1024, 1025, u64::MAX] {
                let (mut bench, a) = asked();
                let shown = header(kind, code, SECOND, length);
                let told = bench.answer_beside(1, b"1", true, &shown);
                assert_eq!(told, Ok((true, interrupted(a, SECOND).to_vec())));
                let again = bench.answer(1, b"1", true);
                assert_eq!(again, Err(Refusal::NothingAsked), "nothing is asked");
                assert_eq!(bench.status_of(a, 0), 0);
            }
        }
    }
}

#[test]
fn what_begins_otherwise_lets_it_be_sent() {
    let whole = header(DATA_END, 0, SECOND, 0);
    let mut prologue = whole.clone();
    prologue[1] = b'T';
    let others = [0, 2, 3, 4, 8, 13, 19, 39, 128].map(|kind| header(kind, 0, SECOND, 0));
    let shown = [vec![], whole[..15].to_vec(), prologue];
    for shown in shown.into_iter().chain(others) {
        let (mut bench, a) = asked();
        let answer = bench.answer_beside(1, b"", true, &shown);
        assert_eq!(answer, Ok((false, vec![sent(a.sync, DATA_END, 0, FIRST)])));
    }
}

#[test]
fn a_remainder_to_skip_is_no_header() {
    let (mut bench, a) = asked();
    bench.deliver(a.sync, &header(DATA, 0, SECOND, 1025));
    let shown = header(DATA_END, 0, SECOND, 0);
    let answer = bench.answer_beside(1, b"", true, &shown);
    assert_eq!(answer, Ok((false, vec![sent(a.sync, DATA_END, 0, FIRST)])));
}

#[test]
fn data_without_end_is_sent_whatever_is_unread() {
    let (mut bench, a) = asked();
    let shown = header(DATA_END, 0, SECOND, 0);
    let part = bench.answer_beside(1, b"", false, &shown);
    assert_eq!(part, Ok((false, vec![sent(a.sync, DATA, 0, FIRST)])));
    assert_eq!(bench.status_of(a, 0), AVAILABLE);
    let end = bench.answer_beside(1, b"", true, &shown);
    assert_eq!(end, Ok((true, interrupted(a, SECOND).to_vec())));
    assert_eq!(bench.status_of(a, 0), 0);
}

#[test]
fn refusals_come_first() {
    let (mut bench, _) = asked();
    let shown = header(DATA_END, 0, SECOND, 0);
    bench.unchanged(|bench| {
        let long = bench.answer_beside(1, &[0; 1025], true, &shown);
        assert_eq!(long, Err(Refusal::AnswerTooLong));
        let nobody = bench.answer_beside(2, b"", true, &shown);
        assert_eq!(nobody, Err(Refusal::NoSession));
    });
    let (mut bench, [_]) = Bench::with();
    let nothing = bench.answer_beside(1, b"", true, &shown);
    assert_eq!(nothing, Err(Refusal::NothingAsked));
}

#[test]
fn a_held_message_that_interrupts_stays_held() {
    let (mut bench, [a, b]) = Bench::with();
    bench.ask(a);
    bench.lock(b, b"", 0);
    let data = message(DATA_END, 0, SECOND, b"?");
    assert_eq!(bench.deliver(a.sync, &data), held());
    let told = bench.answer_beside(1, b"1", true, &data);
    assert_eq!(told, Ok((true, interrupted(a, SECOND).to_vec())));
    assert_eq!(bench.deliver(a.sync, &data), held());
    bench.release(b);
    assert_eq!(bench.deliver(a.sync, &data), acted(a, 17, &[]));
}

#[test]
fn rmt_delivered_that_differs_from_what_is_expected_interrupts() {
    for kind in [DATA, DATA_END, TRIGGER] {
        // Expected, and told.
        let (mut bench, a) = answered();
        assert_eq!(deliver(&mut bench, a, kind, 1, SECOND), []);
        assert_eq!(bench.status_of(a, 0), 0);
        // Expected, and not told.
        let (mut bench, a) = answered();
        let told = deliver(&mut bench, a, kind, 0, SECOND);
        assert_eq!(told, interrupted(a, SECOND));
        assert_eq!(bench.status_of(a, 0), 0, "message available goes off");
        // Not expected, and told.
        let (mut bench, [a]) = Bench::with();
        assert_eq!(
            deliver(&mut bench, a, kind, 1, FIRST),
            interrupted(a, FIRST)
        );
        // Not expected, and not told.
        let (mut bench, [a]) = Bench::with();
        assert_eq!(deliver(&mut bench, a, kind, 0, FIRST), []);
    }
}

#[test]
fn the_message_that_interrupts_acts() {
    let (mut bench, a) = answered();
    deliver(&mut bench, a, DATA_END, 0, SECOND);
    let answer = bench.answer(1, b"", true).expect("it asks");
    assert_eq!(answer, [sent(a.sync, DATA_END, 0, SECOND)]);
    let (mut bench, a) = asked();
    assert_eq!(
        deliver(&mut bench, a, DATA, 1, SECOND),
        interrupted(a, SECOND)
    );
    let nothing = bench.answer(1, b"", true);
    assert_eq!(nothing, Err(Refusal::NothingAsked), "Data asks nothing");
}

#[test]
fn the_test_clears_the_expectation_in_every_case() {
    for code in [0, 1] {
        let (mut bench, a) = answered();
        deliver(&mut bench, a, DATA, code, SECOND);
        assert_eq!(deliver(&mut bench, a, DATA, 0, SECOND + 2), []);
    }
}

#[test]
fn a_clear_and_a_status_query_with_rmt_delivered_clear_it() {
    let (mut bench, a) = answered();
    assert_eq!(bench.status_of(a, 1), 0);
    assert_eq!(deliver(&mut bench, a, DATA, 0, SECOND), []);
    let (mut bench, a) = answered();
    assert_eq!(bench.status_of(a, 0), AVAILABLE);
    assert_eq!(
        deliver(&mut bench, a, DATA, 0, SECOND),
        interrupted(a, SECOND)
    );
    let (mut bench, a) = answered();
    bench.send(a.asynchronous, CLEAR, 0, b"");
    bench.send(a.sync, CLEARED, 0, b"");
    assert_eq!(deliver(&mut bench, a, DATA, 0, FIRST), []);
}

#[test]
fn what_does_not_pass_all_checks_is_not_tested() {
    let (mut bench, [a, b]) = Bench::with();
    bench.ask(a);
    bench.answer(1, b"1", true).expect("asked");
    let out_of_step = message(DATA, 0, FIRST, b"");
    assert_eq!(bench.deliver(a.sync, &out_of_step), error(a.sync, 0, 16));
    assert_eq!(bench.send(a.sync, DATA, 2, b""), error(a.sync, 2, 16));
    assert_eq!(bench.send(a.sync, TRIGGER, 0, b"x"), error(a.sync, 0, 17));
    let too_large = header(DATA, 0, bench.next(a), 1025);
    assert_eq!(bench.deliver(a.sync, &too_large), error(a.sync, 4, 16));
    bench.deliver(a.sync, &[0; 1025]);
    bench.lock(b, b"", 0);
    assert_eq!(bench.send(a.sync, DATA, 0, b""), held());
    bench.release(b);
    let number = bench.next(a);
    assert_eq!(deliver(&mut bench, a, DATA, 1, number), [], "as expected");
}

#[test]
fn a_withheld_answer_expects_nothing() {
    let (mut bench, a) = asked();
    let shown = message(DATA_END, 0, SECOND, b"");
    bench.answer_beside(1, b"1", true, &shown).expect("asked");
    assert_eq!(bench.deliver(a.sync, &shown), acted(a, 16, &[]));
}

#[test]
fn in_overlap_mode_nothing_interrupts() {
    let mut bench = Bench::preferring(Mode::Overlap);
    let a = bench.session_on(0, 1);
    let shown = header(DATA_END, 0, SECOND, 0);
    let told = bench.answer_beside(1, b"", true, &shown);
    assert_eq!(told, Ok((false, vec![sent(a.sync, DATA_END, 0, FIRST)])));
    for code in [0, 1, 1, 0] {
        let number = bench.next(a);
        assert_eq!(deliver(&mut bench, a, DATA_END, code, number), []);
    }
}

#[test]
fn an_interruption_comes_before_what_the_message_brings_about() {
    let (mut bench, [a, b]) = Bench::with();
    bench.lock(a, b"", 0);
    bench.lock(b, b"", 100);
    bench.release_after(a, FIRST);
    let told = deliver(&mut bench, a, DATA_END, 1, FIRST);
    let rest = [released(a, 1), granted(b)];
    assert_eq!(told, [&interrupted(a, FIRST)[..], &rest].concat());
}

#[test]
fn figure_2_slow_client() {
    // The answer is sent; the client writes again without having read it.
    let (mut bench, a) = answered();
    let told = deliver(&mut bench, a, DATA_END, 0, SECOND);
    assert_eq!(told, interrupted(a, SECOND), "rule 2");
    let second = bench.answer(1, b"", true).expect("asked");
    assert_eq!(second, [sent(a.sync, DATA_END, 0, SECOND)]);
}

#[test]
fn figure_3_fast_client() {
    // The second query is there before the first one's answer.
    let (mut bench, a) = asked();
    let second = message(DATA_END, 0, SECOND, b"?");
    let told = bench.answer_beside(1, b"1", true, &second);
    assert_eq!(told, Ok((true, interrupted(a, SECOND).to_vec())), "rule 1");
    assert_eq!(bench.deliver(a.sync, &second), acted(a, 17, &[]));
    let answer = bench.answer(1, b"", true).expect("asked");
    assert_eq!(answer, [sent(a.sync, DATA_END, 0, SECOND)]);
}

#[test]
fn figure_4_partial_response() {
    let (mut bench, a) = asked();
    let part = bench.answer(1, b"", false).expect("asked");
    assert_eq!(part, [sent(a.sync, DATA, 0, FIRST)]);
    let second = message(DATA_END, 0, SECOND, b"?");
    let told = bench.answer_beside(1, b"1", true, &second);
    assert_eq!(told, Ok((true, interrupted(a, SECOND).to_vec())), "rule 1");
    assert_eq!(bench.deliver(a.sync, &second), acted(a, 17, &[]));
}

#[test]
fn figure_5_race() {
    // Answer and second query pass each other on the way.
    let (mut bench, a) = asked();
    let answer = bench.answer_beside(1, b"", true, b"").expect("asked");
    assert_eq!(answer, (false, vec![sent(a.sync, DATA_END, 0, FIRST)]));
    let told = deliver(&mut bench, a, DATA_END, 0, SECOND);
    assert_eq!(told, interrupted(a, SECOND), "rule 2");
}
