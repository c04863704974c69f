//! What a line says of each kind of event and outcome.

mod common;

use common::kept;
use journal::print::print;
use reference::compose::{
    answer, answer_beside, block, clock, cut, deliver, header, message, patterns, watch,
};
use reference::verifier::Verdict;
use reference::{Event, Fresh, Watch};

const SESSION: [&str; 4] = [
    "connection 0 opened; no locks",
    "session 1 Initialize \"\"; no locks",
    "connection 1 opened; no locks",
    "session 1 AsyncInitialize; no locks",
];

/// The lines behind number and clock, of a session and these events.
fn lines(events: Vec<Event>) -> Vec<String> {
    let open = |connection| Event::Open { connection };
    let session = vec![
        open(0),
        deliver(0, message(0, 0, 0x0100_4141, b"")),
        open(1),
        deliver(1, message(17, 0, 1, b"")),
    ];
    let book = kept(Fresh::BENCH, &[session, events].concat());
    let mut out = Vec::new();
    let verdict = print(&book, Fresh::BENCH, &mut out).expect("written");
    assert!(matches!(verdict, Verdict::Accepted { .. }));
    let text = String::from_utf8(out).expect("text");
    let lines = text.lines().map(|line| {
        let (_, says) = line.split_once(" ms  ").expect("a clock reading");
        says.into()
    });
    lines.collect()
}

fn check(told: &[(Event, &str)]) {
    let lines = lines(told.iter().map(|(event, _)| event.clone()).collect());
    let expected = told.iter().map(|(_, says)| *says);
    let expected: Vec<&str> = SESSION.into_iter().chain(expected).collect();
    assert_eq!(lines, expected);
}

#[test]
fn deliveries_by_outcome() {
    let question = message(7, 0, 0xffff_ff00, b"READ?");
    check(&[
        (
            deliver(0, &question[..10]),
            "session 1 10 bytes shown, 6 more needed; no locks",
        ),
        (
            deliver(0, &question[..18]),
            "session 1 18 bytes shown, 3 more needed; no locks",
        ),
        (
            deliver(0, question),
            "session 1 DataEND ffffff00 \"READ?\"; no locks",
        ),
        (
            deliver(0, message(39, 0, 0, b"")),
            "session 1 type 39: Error 1 sent: unrecognized message type; no locks",
        ),
        (
            deliver(0, header(6, 0, 7, 1200)),
            "session 1 Data 00000007: Error 4 sent: message too large; no locks",
        ),
        (deliver(0, [0; 1200]), "session 1 1040 bytes skipped; no locks"),
        (deliver(0, [0; 160]), "session 1 160 bytes skipped; no locks"),
        (
            deliver(0, message(3, 0, 0, b"")),
            "session 1 Error ignored; no locks",
        ),
        (Event::Open { connection: 9 }, "connection 9 opened; no locks"),
        (
            deliver(9, [0; 16]),
            "connection 9 no HiSLIP header: FatalError 1 sent: poorly formed message header; no locks",
        ),
        (
            deliver(0, message(2, 0, 0, b"")),
            "session 1 FatalError: session closed by the program; no locks",
        ),
    ]);
}

#[test]
fn answers_status_and_clock() {
    let next = message(7, 0, 0xffff_ff02, b"*IDN?");
    check(&[
        (clock(1200), "clock 1200 ms; no locks"),
        (Event::Status { status: 0x41 }, "status byte 41; no locks"),
        (
            deliver(0, message(12, 0, 0xffff_ff00, b"")),
            "session 1 Trigger ffffff00; no locks",
        ),
        (
            answer(1, b"+1", 0),
            "session 1 answer ffffff00 \"+1\", more to come; no locks",
        ),
        (
            answer_beside(1, b"E\x00", 1, next),
            "session 1 answer \"E\\x00\" withheld: interrupted by ffffff02; no locks",
        ),
        (
            deliver(0, message(7, 0, 0xffff_ff02, b"*IDN?")),
            "session 1 DataEND ffffff02 \"*IDN?\"; no locks",
        ),
        (
            answer(1, b"meter", 1),
            "session 1 answer ffffff02 \"meter\"; no locks",
        ),
        (
            deliver(0, message(7, 0, 0xffff_ff04, b"X")),
            "session 1 DataEND ffffff04 \"X\"; interrupted by ffffff04: its RMT-delivered; no locks",
        ),
        (
            deliver(1, message(21, 0, 0xffff_ff04, b"")),
            "session 1 AsyncStatusQuery ffffff04, answered 65; no locks",
        ),
    ]);
}

#[test]
fn locks_and_what_waits_for_them() {
    check(&[
        (
            deliver(1, message(4, 1, 0, b"cal")),
            "session 1 AsyncLock shared \"cal\", 0 ms, answered 1; locks: 1 shared \"cal\"",
        ),
        (
            deliver(1, message(4, 0, 0xffff_ff00, b"")),
            "session 1 AsyncLock release after ffffff00, stands; locks: 1 shared \"cal\", 1 release stands for ffffff00",
        ),
        (
            deliver(0, message(6, 0, 0xffff_ff00, b"X")),
            "session 1 Data ffffff00 \"X\"; session 1 AsyncLockResponse 2; no locks",
        ),
        (cut(1), "session 1 connection 1 cut; no locks"),
    ]);
}

#[test]
fn watches_and_what_trips_them() {
    check(&[
        (
            watch(1, Watch::above(1.5)),
            "session 1 watch above 1.5; no locks",
        ),
        (Event::Status { status: 0x41 }, "status byte 41; no locks"),
        (
            deliver(0, message(12, 0, 0xffff_ff00, b"")),
            "session 1 Trigger ffffff00; no locks",
        ),
        (
            answer(1, &block(&[2.0]), 0),
            "session 1 answer ffffff00 \"#14@\\x00\\x00\\x00\", more to come; service requested, status byte 51; no locks",
        ),
        (
            answer(1, &block(&[2.0]), 1),
            "session 1 answer ffffff00 \"#14@\\x00\\x00\\x00\"; no locks",
        ),
        (
            watch(1, Watch::outside(-1.0, f32::INFINITY)),
            "session 1 watch outside -1 to inf; no locks",
        ),
        (watch(1, Watch::Off), "session 1 watch off; no locks"),
    ]);
}

#[test]
fn allowed_commands() {
    check(&[
        (
            patterns(&["*RST", "SYSTem:ERRor[:NEXT]?"]),
            "commands allowed: \"*RST\" \"SYSTem:ERRor[:NEXT]?\"; no locks",
        ),
        (
            deliver(0, message(7, 0, 0xffff_ff00, b"*rst")),
            "session 1 DataEND ffffff00 \"*rst\"; no locks",
        ),
        (
            deliver(0, message(7, 0, 0xffff_ff02, b"*IDN?")),
            "session 1 DataEND ffffff02: Error 128 sent: device defined error; no locks",
        ),
        (patterns::<&str>(&[]), "no command allowed; no locks"),
    ]);
}
