//! What stands beside each answer.

mod common;

use common::kept;
use journal::print::print;
use journal::readings::readings;
use reference::compose::{answer, answer_beside, clock, cut, deliver, message};
use reference::journal::Keeping;
use reference::{Event, Fresh, Mode};

const OVERLAP: Fresh = Fresh {
    prefers: Mode::Overlap,
    ..Fresh::BENCH
};
const FIRST: u32 = 0xffff_ff00;

/// Sessions 1, 2, .. on connections 0 and 1, 2 and 3, .. : entries 0 to 4 n - 1.
fn sessions(count: u32) -> Vec<Event> {
    let session = |number: u32| {
        let connection = 2 * (number - 1);
        let open = |connection| Event::Open { connection };
        [
            open(connection),
            deliver(connection, message(0, 0, 0x0100_4141, b"")),
            open(connection + 1),
            deliver(connection + 1, message(17, 0, number, b"")),
        ]
    };
    (1..=count).flat_map(session).collect()
}

/// A message of a session on its synchronous connection, the so-many-th.
fn sync(session: u32, kind: u8, place: u32, text: &str) -> Event {
    let number = FIRST.wrapping_add(2 * place);
    deliver(2 * (session - 1), message(kind, 0, number, text.as_bytes()))
}

fn asynchronous(session: u32, kind: u8, code: u8, number: u32) -> Event {
    deliver(2 * session - 1, message(kind, code, number, b""))
}

fn lock(session: u32) -> Event {
    asynchronous(session, 4, 1, 0)
}

fn page(fresh: Fresh, events: &[Event]) -> String {
    let mut out = Vec::new();
    readings(&kept(fresh, events), fresh, &mut out).expect("written");
    String::from_utf8(out).expect("text")
}

fn after(count: u32, events: impl IntoIterator<Item = Event>) -> String {
    page(Fresh::BENCH, &together(count, events))
}

fn together(count: u32, events: impl IntoIterator<Item = Event>) -> Vec<Event> {
    sessions(count).into_iter().chain(events).collect()
}

#[test]
fn parts_of_commands_and_answers_are_joined() {
    let told = after(
        1,
        [
            sync(1, 6, 0, "MEAS:"),
            sync(1, 7, 1, "VOLT?"),
            answer(1, b"+1.25", 0),
            answer(1, b"", 0),
            answer(1, b"E+0\n", 1),
        ],
    );
    let expected = "
reading 1: session 1, entry 8, 0 ms, ffffff02, 3 parts
  \"+1.25E+0\\n\"
  command: entry 5, 0 ms, DataEND ffffff02 \"MEAS:VOLT?\"
  acted since the session's first command, entry 4: 2
    entry 4, 0 ms, session 1 Data ffffff00 \"MEAS:\"
    entry 5, 0 ms, session 1 DataEND ffffff02 \"VOLT?\"
  others in between: none
  exclusive lock: not held
";
    assert_eq!(told, expected);
}

#[test]
fn nothing_is_cut_off() {
    let long = "9".repeat(1000);
    let told = after(1, [sync(1, 7, 0, &long), answer(1, long.as_bytes(), 1)]);
    assert_eq!(told.matches(&long).count(), 3, "answer, command and act");
}

#[test]
fn the_lock_all_the_while_since_later_or_not() {
    let read = |place| [sync(1, 7, place, "READ?"), answer(1, b"1", 1)];
    let again = |place| {
        let mut read = read(place);
        read[0] = deliver(0, message(7, 1, FIRST + 2 * place, b"READ?"));
        read
    };
    let mut events = vec![lock(1)];
    events.extend(read(0));
    events.push(asynchronous(1, 4, 0, FIRST));
    events.extend(again(1));
    events.push(lock(1));
    events.extend(again(2));
    let told = after(1, events);
    let locks: Vec<&str> = told.lines().filter(|line| line.contains("lock:")).collect();
    let expected = [
        "  exclusive lock: held all the while, since entry 4",
        "  exclusive lock: not held",
        "  exclusive lock: not all the while; held since entry 10",
    ];
    assert_eq!(locks, expected);
}

#[test]
fn others_are_named_with_what_they_did() {
    let told = after(
        3,
        [
            sync(2, 12, 0, ""),
            sync(1, 6, 0, "CONF;"),
            sync(3, 7, 0, "RANG 1"),
            sync(3, 6, 1, "RANG"),
            asynchronous(3, 19, 0, 0),
            asynchronous(2, 19, 0, 0),
            sync(1, 7, 1, "READ?"),
            answer(1, b"1", 1),
        ],
    );
    let others =
        "others in between: session 2 (1 device clear), session 3 (2 commands, 1 device clear)";
    assert!(told.contains(others), "{told}");
    assert!(told.contains("first command, entry 13: 6\n"), "{told}");
    assert!(told.contains("    entry 16, 0 ms, session 3 AsyncDeviceClear\n"));
    assert!(!told.contains("Trigger"), "it was before the first");
}

#[test]
fn a_withheld_answer_is_no_reading_and_what_was_sent_of_one_is() {
    let next = message(7, 0, FIRST + 2, b"*IDN?");
    let withheld = answer_beside(1, b"1", 1, next);
    let told = after(1, [sync(1, 7, 0, "READ?"), withheld.clone()]);
    assert_eq!(told, "\nno readings\n");
    let told = after(1, [sync(1, 7, 0, "READ?"), answer(1, b"+", 0), withheld]);
    let line = "reading 1: session 1, entry 5, 0 ms, ffffff00, not ended: interrupted\n  \"+\"\n";
    assert!(told.contains(line), "{told}");
}

#[test]
fn what_keeps_an_answer_from_its_end() {
    let begun = [sync(1, 7, 0, "READ?"), answer(1, b"+", 0)];
    let interrupts = deliver(0, message(7, 1, FIRST + 2, b"X"));
    for (event, why) in [
        (interrupts, "interrupted"),
        (asynchronous(1, 19, 0, 0), "device clear"),
        (cut(1), "the session closed"),
        (deliver(0, message(2, 0, 0, b"")), "the session closed"),
        (deliver(0, *b"no HiSLIP header"), "the session closed"),
        (sync(2, 7, 0, "Y"), "the journal ends"),
    ] {
        let told = after(2, begun.iter().cloned().chain([event]));
        let expected = format!("entry 9, 0 ms, ffffff00, not ended: {why}\n");
        assert!(told.contains(&expected), "{told}");
        assert_eq!(told.matches("reading ").count(), 1);
    }
    let asked = [sync(1, 7, 1, "X?"), answer(1, b"2", 1)];
    let told = after(2, begun.into_iter().chain(asked));
    assert!(told.contains("reading 1: session 1, entry 9, 0 ms, ffffff00, not ended: another"));
    assert!(told.contains("reading 2: session 1, entry 11, 0 ms, ffffff02\n  \"2\"\n"));
}

#[test]
fn in_overlap_mode_no_command_is_named() {
    let events = [
        answer(1, b"0", 1),
        sync(1, 7, 0, "A?"),
        sync(1, 7, 1, "B?"),
        answer(1, b"1", 1),
    ];
    let told = page(OVERLAP, &together(1, events));
    let first = "reading 1: session 1, entry 4, 0 ms, ffffff00
  \"0\"
  command: none
  acted: no command of the session yet
";
    assert!(told.contains(first), "{told}");
    let second = "reading 2: session 1, entry 7, 0 ms, ffffff02
  \"1\"
  command: not named in overlap mode; the last was entry 6, 0 ms, DataEND ffffff02 \"B?\"
";
    assert!(told.contains(second), "{told}");
    let clear = [
        asynchronous(1, 19, 0, 0),
        deliver(0, message(8, 0, 0, b"")),
        sync(1, 7, 0, "C?"),
        answer(1, b"2", 1),
    ];
    let told = page(OVERLAP, &together(1, clear));
    let named = "command: entry 6, 0 ms, DataEND ffffff00 \"C?\"";
    assert!(told.contains(named), "a clear changes the mode: {told}");
}

#[test]
fn in_overlap_mode_an_answer_may_come_before_every_command() {
    let events = [
        answer(1, b"0", 0),
        sync(2, 7, 0, "A"),
        sync(1, 7, 0, "B"),
        cut(0),
    ];
    let told = page(OVERLAP, &together(2, events));
    assert!(
        told.contains("not ended: the session closed\n  \"0\"\n"),
        "{told}"
    );
    assert!(told.contains("acted: no command of the session yet\n"));
}

/// Events that may follow one another in any order.
fn pool() -> Vec<Event> {
    let next = message(7, 0, FIRST + 2, b"Y?");
    let mut pool = vec![Event::Status { status: 4 }, clock(1), cut(4)];
    for session in 1..=3 {
        let numbers = [FIRST, FIRST + 2];
        pool.extend([lock(session), asynchronous(session, 19, 0, 0)]);
        pool.extend(numbers.map(|number| asynchronous(session, 4, 0, number)));
        pool.extend([0, 1].map(|code| deliver(2 * session - 2, message(8, code, 0, b""))));
        pool.extend([6, 7, 12].map(|kind| sync(session, kind, 0, "")));
        pool.extend([6, 7].map(|kind| sync(session, kind, 1, "X")));
        pool.extend([0, 1, 1].map(|end| answer(session, b"1", end)));
        pool.push(answer_beside(session, b"2", 1, next.clone()));
        pool.push(deliver(2 * session - 2, message(7, 1, FIRST + 2, b"Z")));
    }
    pool
}

/// In synchronized mode the command has the answer's number, and under the lock nobody else's command acted.
fn agrees(reading: &str) {
    let line = |begins: &str| {
        let line = reading.lines().find(|line| line.starts_with(begins));
        line.unwrap_or_default()
    };
    let command = line("  command: entry");
    let number = reading.split(" ms, ").nth(1).and_then(|rest| rest.get(..8));
    assert!(
        command.is_empty() || command.contains(number.expect("a number")),
        "{reading}"
    );
    if line("  exclusive lock").contains("all the while, since") {
        assert!(
            !line("  others in between").contains("command"),
            "{reading}"
        );
    }
}

/// Every answer that ended is a reading, whatever the order.
#[test]
fn random_lists_have_a_reading_for_each_answer() {
    let pool = pool();
    let mut seed = 3_u64;
    let mut random = |below: usize| {
        seed = seed.wrapping_mul(6_364_136_223_846_793_005).wrapping_add(1);
        (seed >> 33) as usize % below
    };
    let mut found = 0;
    for round in 0..200 {
        let fresh = [Fresh::BENCH, OVERLAP][round % 2];
        let mut keeping = Keeping::new(fresh, 1 << 16);
        let mut ended = 0;
        let drawn = (0..80).map(|_| pool[random(pool.len())].clone());
        for event in sessions(3).into_iter().chain(drawn.collect::<Vec<_>>()) {
            let (reply, _) = keeping.event(&event);
            let sent = reply.refusal == 0 && reply.withheld == 0;
            ended += usize::from(sent && matches!(event, Event::Answer { end: 1, .. }));
        }
        let book = keeping.close();
        let mut out = Vec::new();
        readings(&book, fresh, &mut out).expect("written");
        print(&book, fresh, &mut Vec::new()).expect("written");
        let told = String::from_utf8(out).expect("text");
        let lines = || told.lines().filter(|line| line.starts_with("reading "));
        assert_eq!(
            lines().filter(|line| !line.contains("not ended")).count(),
            ended
        );
        found += lines().count();
        told.split("\nreading ").for_each(agrees);
    }
    assert!(found > 500, "{found}");
}

#[test]
fn a_new_session_begins_anew() {
    let mut events = vec![sync(1, 7, 0, "OLD"), cut(0)];
    events.extend([
        Event::Open { connection: 0 },
        deliver(0, message(0, 0, 0x0100_4141, b"")),
        Event::Open { connection: 1 },
        deliver(1, message(17, 0, 2, b"")),
        sync(1, 7, 0, "NEW?"),
        answer(2, b"1", 1),
    ]);
    let told = after(1, events);
    assert!(told.contains("reading 1: session 2, entry 11,"), "{told}");
    assert!(told.contains("first command, entry 10: 1\n"), "{told}");
}
