//! Q-12 at the server: lists, their refusals, and what becomes of a command that is not allowed.

mod common;

use common::*;
use reference::commands::lines;
use reference::compose::header;
use reference::{Mode, Outcome, Refusal, RefusedList};

const LIST: &[u8] = b"*IDN?\nMEASure[:VOLTage[:DC]]?\n";
const NOT_ALLOWED: u8 = 128;

fn listed(list: &[u8]) -> (Bench, Client) {
    let (mut bench, [a]) = Bench::with();
    assert_eq!(bench.server.patterns(list), Ok(()));
    (bench, a)
}

fn refused(refusal: Refusal, pattern: usize, place: usize) -> Result<(), RefusedList> {
    Err(RefusedList {
        refusal,
        pattern,
        place,
    })
}

fn is_allowed(bench: &mut Bench, client: Client, payload: &[u8]) -> bool {
    let size = 16 + payload.len();
    let seen = bench.send(client.sync, DATA_END, 0, payload);
    match seen.outcome {
        Outcome::ActedOn => assert_eq!(seen, acted(client, size, &[])),
        _ => assert_eq!(seen, error(client.sync, NOT_ALLOWED, size)),
    }
    seen.outcome == Outcome::ActedOn
}

fn check(list: &[u8], right: &[&[u8]], wrong: &[&[u8]]) {
    let (mut bench, a) = listed(list);
    for payload in right {
        let shown = payload.escape_ascii();
        assert!(is_allowed(&mut bench, a, payload), "{shown}");
    }
    for payload in wrong {
        let shown = payload.escape_ascii();
        assert!(!is_allowed(&mut bench, a, payload), "{shown}");
    }
}

#[test]
fn the_command_goes_up_to_the_first_space_newline_or_end() {
    let right: [&[u8]; 9] = [
        b"*IDN?",
        b"*idn?\n",
        b"*IDN? ",
        b"*IDN? anything, \xff\x00 really",
        b"*IDN?\nSYST:EXPLODE",
        b"*IDN? \n",
        b"MEAS:VOLT? (@101)",
        b"measure?\n*RST",
        b"MEASure:VOLTage:DC?\n",
    ];
    let wrong: [&[u8]; 13] = [
        b"",
        b" ",
        b"\n",
        b" *IDN?",
        b"\n*IDN?",
        b"*IDN?\t",
        b"*IDN?\r\n",
        b"*IDN?;",
        b"*IDN?;*RST",
        b"*IDN",
        b"*RST",
        b":MEAS?",
        b"MEASU?",
    ];
    check(LIST, &right, &wrong);
}

#[test]
fn no_list_allows_all_and_an_empty_one_nothing() {
    let (mut bench, [a]) = Bench::with();
    for payload in [&b""[..], b"\n", b"anything", &[0xff; 1024]] {
        assert!(is_allowed(&mut bench, a, payload));
    }
    let nothing: [&[u8]; 5] = [b"", b"\n", b"*IDN?", b"A", &[b'A'; 1024]];
    check(b"", &[], &nothing);
}

#[test]
fn only_the_data_end_is_judged_and_only_its_own_payload() {
    let (mut bench, a) = listed(LIST);
    assert_eq!(bench.send(a.sync, DATA, 0, b"*RST"), acted(a, 20, &[]));
    assert_eq!(bench.send(a.sync, DATA, 0, b"*ID"), acted(a, 19, &[]));
    assert!(!is_allowed(&mut bench, a, b"N?"), "what came before is not");
    assert!(is_allowed(&mut bench, a, b"*IDN?"));
    assert_eq!(bench.send(a.sync, TRIGGER, 0, b""), acted(a, 16, &[]));
}

#[test]
fn what_is_not_allowed_moves_the_number_and_does_nothing_else() {
    let (mut bench, [a, b]) = Bench::with();
    assert_eq!(bench.server.patterns(LIST), Ok(()));
    bench.lock(a, b"", 0);
    bench.lock(b, b"", 50);
    let number = bench.next(a);
    assert_eq!(bench.release_after(a, number), acted(a, 16, &[]), "stands");
    assert!(!is_allowed(&mut bench, a, b"*RST"));
    assert_eq!(bench.next(a), number + 2);
    assert_eq!(bench.info(a), (1, 1), "the release still stands");
    assert_eq!(bench.answer(1, b"", true), Err(Refusal::NothingAsked));
    assert_eq!(bench.server.lock_view().sessions[0].last, None);
    let again = message(DATA_END, 0, number, b"*IDN?");
    assert_eq!(bench.deliver(a.sync, &again), error(a.sync, 0, 21));
}

#[test]
fn after_the_number_and_the_code() {
    let (mut bench, a) = listed(LIST);
    let number = bench.next(a);
    let early = message(DATA_END, 0, number + 2, b"*RST");
    assert_eq!(bench.deliver(a.sync, &early), error(a.sync, 0, 20));
    let coded = message(DATA_END, 2, number, b"*RST");
    assert_eq!(bench.deliver(a.sync, &coded), error(a.sync, 2, 20));
    let next = message(DATA_END, 1, number + 2, b"*RST");
    assert_eq!(bench.deliver(a.sync, &next), error(a.sync, NOT_ALLOWED, 20));
    assert_eq!(bench.next(a), number + 4);
}

#[test]
fn held_ignored_too_large_and_unfinished_come_before() {
    let (mut bench, [a, b]) = Bench::with();
    assert_eq!(bench.server.patterns(b""), Ok(()));
    bench.lock(b, b"", 0);
    assert_eq!(bench.send(a.sync, DATA_END, 0, b"*RST"), held());
    bench.release(b);
    let part = message(DATA_END, 0, FIRST, b"*RST");
    assert_eq!(bench.deliver(a.sync, &part[..19]), more_needed());
    bench.send(a.asynchronous, CLEAR, 0, b"");
    assert_eq!(bench.send(a.sync, DATA_END, 0, b"*RST"), ignored(20));
    bench.send(a.sync, CLEARED, 0, b"");
    let large = header(DATA_END, 0, FIRST, 1025);
    assert_eq!(bench.deliver(a.sync, &large), error(a.sync, 4, 16));
}

/// The answer was delivered, but the message that says so is not allowed: the next one tells it again, or is taken
/// for one that interrupts.
#[test]
fn before_the_test_of_rmt_delivered() {
    for (code, interrupts) in [(1, false), (0, true)] {
        for refused in [0, 1] {
            let (mut bench, a) = listed(LIST);
            bench.ask(a);
            bench.answer(1, b"meter", true).expect("asked");
            let seen = bench.send(a.sync, DATA_END, refused, b"*RST");
            assert_eq!(seen, error(a.sync, NOT_ALLOWED, 20));
            assert_eq!(bench.status_of(a, 0), 16, "still available");
            let seen = bench.send(a.sync, DATA_END, code, b"*IDN?");
            let kinds: Vec<u8> = seen.frames.iter().map(|frame| frame.kind).collect();
            let expected: &[u8] = if interrupts { &[14, 13] } else { &[] };
            assert_eq!(kinds, expected);
        }
    }
}

#[test]
fn the_first_bad_pattern_is_refused_as_11_with_its_place() {
    for (text, pattern, place) in [
        (&b"a"[..], 0, 0),
        (b"\n", 0, 0),
        (b"\nA", 0, 0),
        (b"A\n\n", 1, 0),
        (b"A\n\nB\n", 1, 0),
        (b"A\r\nB\r\n", 0, 1),
        (b"A\nBb:", 1, 3),
        (b"A\nBbC\nc\n", 1, 2),
        (b"A\nB\n*IDN?\nMEASure[:VOLTage?]", 3, 16),
        (b" A", 0, 0),
    ] {
        let (mut bench, _) = listed(LIST);
        let told = bench.unchanged(|bench| bench.server.patterns(text));
        let shown = text.escape_ascii();
        assert_eq!(
            told,
            refused(Refusal::BadPattern, pattern, place),
            "{shown}"
        );
    }
    assert_eq!(Refusal::BadPattern as u8, 11);
}

#[test]
fn a_pattern_too_long_or_too_deep_is_bad_in_its_place() {
    let (mut bench, a) = listed(LIST);
    let mut second = |pattern: String| {
        let text = format!("A\n{pattern}\na\n");
        bench.unchanged(|bench| bench.server.patterns(text.as_bytes()))
    };
    let bad = |place| refused(Refusal::BadPattern, 1, place);
    assert_eq!(second("A".repeat(129)), bad(128));
    assert_eq!(second("A".repeat(127) + ":"), bad(128));
    assert_eq!(second("A".repeat(100) + "a?b" + &"A".repeat(100)), bad(102));
    assert_eq!(second("A".to_string() + &"[".repeat(9)), bad(9));
    assert!(is_allowed(&mut bench, a, b"*IDN?"));
    assert!(!is_allowed(&mut bench, a, b"A"), "the old list stands");
}

#[test]
fn above_32_is_refused_as_12_before_that() {
    let (mut bench, a) = listed(LIST);
    let most = b"A\n".repeat(32);
    for more in [
        &b"A"[..],
        b"A\n",
        b"\n",
        b"a\n",
        b"A\nB\n",
        &b"\n".repeat(5000),
    ] {
        for first in [&most[..], &b"bad\n".repeat(32)] {
            let text = [first, more].concat();
            let told = bench.unchanged(|bench| bench.server.patterns(&text));
            assert_eq!(told, refused(Refusal::TooManyPatterns, 0, 0));
        }
    }
    assert_eq!(Refusal::TooManyPatterns as u8, 12);
    assert!(is_allowed(&mut bench, a, b"*IDN?"));
    assert_eq!(bench.server.patterns(&most), Ok(()));
    assert_eq!(
        bench.server.patterns(&most[..63]),
        Ok(()),
        "no last newline"
    );
    assert!(is_allowed(&mut bench, a, b"a"));
    let last = [&b"A\n".repeat(31)[..], b"ZZzz?"].concat();
    assert_eq!(bench.server.patterns(&last), Ok(()));
    assert!(is_allowed(&mut bench, a, b"zz?"));
}

#[test]
fn a_text_has_a_pattern_a_line_and_the_last_newline_may_be_missing() {
    assert_eq!(lines(b""), [b""; 0]);
    assert_eq!(lines(b"\n"), [b""]);
    assert_eq!(lines(b"A"), [b"A"]);
    assert_eq!(lines(b"A\n"), [b"A"]);
    assert_eq!(lines(b"A\nB"), [b"A", b"B"]);
    assert_eq!(lines(b"A\n\n"), [&b"A"[..], b""]);
    assert_eq!(lines(b"\nA"), [&b""[..], b"A"]);
    let (with, _) = listed(b"A\nB\n");
    let (without, _) = listed(b"A\nB");
    assert_eq!(with.server, without.server);
}

#[test]
fn a_list_holds_for_all_sessions_and_outlives_them() {
    let (mut bench, a) = listed(LIST);
    let b = bench.session_on(8, 9);
    assert!(!is_allowed(&mut bench, b, b"*RST"));
    bench.send(a.asynchronous, CLEAR, 0, b"");
    bench.send(a.sync, CLEARED, 0, b"");
    assert!(!is_allowed(&mut bench, a, b"*RST"), "a clear keeps it");
    bench.cut(a.sync);
    bench.cut(b.sync);
    let c = bench.session_on(0, 1);
    assert!(!is_allowed(&mut bench, c, b"*RST"));
    assert!(is_allowed(&mut bench, c, b"*IDN?"));
    assert_eq!(bench.server.patterns(b"*RST"), Ok(()));
    assert!(is_allowed(&mut bench, c, b"*RST"), "another list");
    assert!(!is_allowed(&mut bench, c, b"*IDN?"));
    assert_eq!(bench.server.patterns(b""), Ok(()));
    assert!(!is_allowed(&mut bench, c, b"*RST"));
}

#[test]
fn setting_a_list_needs_no_session_and_changes_nothing_else() {
    let mut bench = Bench::new();
    assert_eq!(bench.server.patterns(LIST), Ok(()));
    let a = bench.session_on(0, 1);
    let number = bench.ask(a);
    assert_eq!(bench.server.patterns(b"A"), Ok(()));
    let sent = bench.answer(1, b"meter", true).expect("it was asked");
    assert_eq!(sent[0].parameter, number);
    assert_eq!(bench.server.patterns(b"A\n"), Ok(()));
    bench.unchanged(|bench| assert_eq!(bench.server.patterns(b"A"), Ok(())));
}

#[test]
fn in_overlap_mode_too() {
    let mut bench = Bench::preferring(Mode::Overlap);
    let a = bench.session_on(0, 1);
    assert_eq!(bench.server.patterns(LIST), Ok(()));
    assert!(!is_allowed(&mut bench, a, b"*RST"));
    assert!(is_allowed(&mut bench, a, b"*IDN?"));
}
