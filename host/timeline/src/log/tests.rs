//! A short log, its lanes, and what is wrong with others.

use super::{is_log, read, Log, Window};
use crate::lanes::{Kind, Mark};

const LOG: &str = r#"2026-11-16T06:50:00.000Z gateway listens on 127.0.0.1:4880 for a simulated meter
2026-11-16T06:50:01.000Z 127.0.0.1:5001 - connection 0 opens; no locks
2026-11-16T06:50:01.001Z 127.0.0.1:5001 session 1 Initialize "hislip0"; no locks
2026-11-16T06:50:01.002Z 127.0.0.1:5003 session 2 Initialize "hislip0"; no locks
2026-11-16T06:50:02.000Z 127.0.0.1:5002 session 1 AsyncLock exclusive, 0 ms, answered 1; locks: 1 exclusive
2026-11-16T06:50:02.001Z 127.0.0.1:5004 session 2 AsyncLock shared "a; \"b, c", 900 ms, waits; locks: 1 exclusive, 2 waits
2026-11-16T06:50:02.002Z 127.0.0.1:5003 session 2 DataEND ffffff00 held; locks: 1 exclusive, 2 waits
2026-11-16T06:50:02.003Z 127.0.0.1:5001 session 1 DataEND ffffff00 "READ?; x: FatalError 1"; locks: 1 exclusive, 2 waits
2026-11-16T06:50:02.150Z 127.0.0.1:5001 session 1 answer ffffff00 "+1.25"; locks: 1 exclusive, 2 waits
2026-11-16T06:50:02.151Z 127.0.0.1:5002 session 1 AsyncLock release after ffffff02, stands; locks: 1 exclusive, 1 release stands for ffffff02, 2 waits
2026-11-16T06:50:02.152Z 127.0.0.1:5001 session 1 Trigger ffffff02; locks: 2 shared "a; \"b, c"
2026-11-16T06:50:02.153Z 127.0.0.1:5004 session 2 AsyncLockResponse 1 after waiting; locks: 2 shared "a; \"b, c", 2 lock 7 at 2026-11-16T06:50:02.152Z
2026-11-16T06:50:02.154Z 127.0.0.1:5003 session 2 DataEND ffffff00 "*IDN?"; locks: 2 shared "a; \"b, c"
2026-11-16T06:50:02.155Z - - status byte is 04; locks: 2 shared "a; \"b, c"
2026-11-16T06:50:02.156Z 127.0.0.1:5003 session 2 connection 2 cut: the program closed it; no locks
2026-11-16T06:50:02.157Z - session 2 answer "meter" dropped: nobody waits for it; no locks
2026-11-16T06:50:02.158Z 3 lines dropped
2026-11-16T06:50:03.000Z gateway ends: SIGTERM; 2 connections cut
"#;

fn whole() -> Log {
    read(LOG, Window::default()).expect("well formed")
}

fn spans(log: &Log, session: u16, kind: Kind) -> Vec<(usize, usize)> {
    let spans = log.lanes.sessions[&session].spans.iter();
    let wanted = spans.filter(|span| span.kind == kind);
    wanted.map(|span| (span.from, span.to)).collect()
}

#[test]
fn sessions_locks_waits_and_held_messages() {
    let log = whole();
    assert_eq!(spans(&log, 1, Kind::Lives), [(2, 17)]);
    assert_eq!(
        spans(&log, 2, Kind::Lives),
        [(3, 14)],
        "no late answer wakes it"
    );
    assert_eq!(spans(&log, 1, Kind::Exclusive), [(4, 10)]);
    assert_eq!(spans(&log, 1, Kind::Stands), [(9, 10)]);
    assert_eq!(spans(&log, 2, Kind::Waits), [(5, 10)]);
    assert_eq!(spans(&log, 2, Kind::Held), [(6, 12)]);
    assert_eq!(spans(&log, 2, Kind::Shared), [(10, 14)], "until the cut");
    assert_eq!((log.lanes.events, log.dropped), (18, 3));
}

#[test]
fn commands_and_readings() {
    let log = whole();
    let mark = |at, message_id, reading| Mark {
        at,
        message_id,
        reading,
    };
    let of_one = [
        mark(7, 0xffff_ff00, false),
        mark(8, 0xffff_ff00, true),
        mark(10, 0xffff_ff02, false),
    ];
    assert_eq!(log.lanes.sessions[&1].marks, of_one);
    let of_two = [mark(12, 0xffff_ff00, false)];
    assert_eq!(log.lanes.sessions[&2].marks, of_two);
}

#[test]
fn the_time_is_named_every_tenth_of_a_second() {
    let clock = whole().lanes.clock;
    let told: Vec<(usize, &str)> = clock.iter().map(|(at, time)| (*at, &time[..])).collect();
    let first = [(0, "06:50:00.000Z"), (1, "06:50:01.000Z")];
    let then = [(4, "06:50:02.000Z"), (8, "06:50:02.150Z")];
    assert_eq!(told, [&first[..], &then, &[(17, "06:50:03.000Z")]].concat());
}

#[test]
fn a_window_knows_what_was_before_it() {
    let window = Window {
        from: "2026-11-16T06:50:02.002",
        to: Some("2026-11-16T06:50:02.153"),
    };
    let log = read(LOG, window).expect("well formed");
    assert_eq!(log.lanes.events, 5);
    assert_eq!(spans(&log, 1, Kind::Lives), [(0, 5)]);
    assert_eq!(spans(&log, 1, Kind::Exclusive), [(0, 4)]);
    assert_eq!(spans(&log, 2, Kind::Held), [(0, 5)]);
    let marks = log.lanes.sessions[&1].marks.iter();
    assert_eq!(marks.map(|mark| mark.at).collect::<Vec<_>>(), [1, 2, 4]);
}

#[test]
fn a_second_gateway_begins_with_nothing() {
    let first = LOG.lines().take(8).map(|line| format!("{line}\n"));
    let killed: String = first.collect();
    let log = read(&(killed + LOG), Window::default()).expect("well formed");
    assert_eq!(spans(&log, 1, Kind::Exclusive), [(4, 8), (12, 18)]);
    assert_eq!(spans(&log, 2, Kind::Held), [(6, 8), (14, 20)]);
}

#[test]
fn a_torn_last_line_is_left_out() {
    let torn = &LOG[..LOG.len() - 7];
    assert_eq!(
        read(torn, Window::default()).expect("torn").lanes.events,
        17
    );
}

#[test]
fn what_is_no_log_is_named_with_its_line() {
    assert!(is_log(LOG));
    assert!(!is_log("# vendor AA\nopen 0 -> done\n") && !is_log(""));
    let time = "2026-11-16T06:50:00.000Z";
    for (line, what) in [
        ("gateway listens", "no time"),
        (&format!("{time} here"), "no session"),
        (&format!("{time} - here; no locks"), "no session"),
        (
            &format!("{time} - session x y; no locks"),
            "`x` is no number",
        ),
        (&format!("{time} - - status"), "no locks behind `;`"),
        (
            &format!("{time} - - status; none"),
            "`none` does not tell locks",
        ),
        (
            &format!("{time} - - a; locks: 1 mine"),
            "`1 mine` is no lock",
        ),
    ] {
        let text = format!("{time} gateway listens\n{line}\n");
        let told = read(&text, Window::default()).err();
        assert_eq!(told, Some(format!("line 2: {what}")));
    }
}
