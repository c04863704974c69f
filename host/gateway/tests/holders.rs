//! The holders that the log names are those that the server counts.

mod common;

use std::time::Duration;

use common::client::Client;
use common::Running;

const CLIENTS: usize = 4;
/// Characters of a time in the log.
const TIME: usize = 24;
const ROUNDS: usize = 120;

/// Numbers that only look random, the same in every run.
struct Dice(u32);

impl Dice {
    fn throw(&mut self, sides: usize) -> usize {
        self.0 = self.0.wrapping_mul(1_664_525).wrapping_add(1_013_904_223);
        (self.0 >> 16) as usize % sides
    }
}

/// What the log says at the latest AsyncLockInfo: an exclusive holder, and how many holders, each with its
/// record.
fn logged(gateway: &Running, count: usize) -> (u8, u32) {
    assert!(common::eventually(
        || gateway.count(" AsyncLockInfo; ") == count
    ));
    let text = gateway.lines.text();
    let line = text.lines().rfind(|line| line.contains(" AsyncLockInfo; "));
    let (_, locks) = line.and_then(|line| line.split_once("; ")).expect("a line");
    let holds = |part: &&str| part.contains("exclusive") || part.contains("shared");
    let parts: Vec<&str> = locks
        .trim_start_matches("locks: ")
        .split(", ")
        .filter(holds)
        .collect();
    let mut sessions: Vec<&str> = parts
        .iter()
        .filter_map(|part| part.split(' ').next())
        .collect();
    sessions.dedup();
    assert_eq!(locks.matches(" lock ").count(), sessions.len(), "{locks}");
    let exclusive = parts.iter().any(|part| part.contains("exclusive"));
    (exclusive.into(), sessions.len() as u32)
}

fn act(client: &mut Client, dice: &mut Dice) {
    let string = [&b""[..], b"cal", b"cal", b"other"][dice.throw(4)];
    match dice.throw(6) {
        0 | 1 => {
            client.lock(string, 0);
        }
        2 => {
            client.lock(string, 15);
        }
        3 => {
            client.release();
        }
        4 => {
            client.release_ahead();
            client.device_clear();
        }
        _ => {
            client.device_clear();
        }
    }
}

#[test]
fn the_log_names_the_holders_that_the_server_counts() {
    let gateway = Running::start();
    let mut dice = Dice(7);
    let mut observer = gateway.open();
    let mut clients: Vec<Client> = (0..CLIENTS).map(|_| gateway.open()).collect();
    for round in 1..=ROUNDS {
        let one = dice.throw(CLIENTS);
        match dice.throw(12) {
            0 => clients[one] = gateway.open(),
            _ => act(&mut clients[one], &mut dice),
        }
        let counted = observer.lock_info();
        assert_eq!(logged(&gateway, round), counted, "round {round}");
    }
    assert!(gateway.count("exclusive") > 10 && gateway.count("shared") > 10);
}

/// The number and the time of the last lock that the log tells of a session.
fn record(line: &str, session: u16) -> (u64, &str) {
    let (_, record) = line.split_once(&format!(", {session} lock ")).expect(line);
    let (grants, rest) = record.split_once(" at ").expect(line);
    (grants.parse().expect("a number"), &rest[..TIME])
}

fn line_with<'a>(text: &'a str, what: &str) -> &'a str {
    text.lines().find(|line| line.contains(what)).expect(what)
}

#[test]
fn the_log_tells_since_when_a_lock_is_held() {
    let gateway = Running::start();
    let (mut a, mut b) = (gateway.open(), gateway.open());
    for _ in 0..2 {
        assert_eq!((a.lock(b"cal", 0), a.release()), (1, 2));
    }
    assert_eq!(a.lock(b"", 0), 1);
    b.request(b"", 60_000);
    assert!(gateway.logged("session 2 AsyncLock exclusive, 60000 ms, waits"));
    std::thread::sleep(Duration::from_millis(30));
    assert_eq!((a.release(), b.lock_answer()), (1, 1));
    assert!(gateway.logged("after waiting; locks: 2 exclusive, 2 lock 1 at "));
    let text = gateway.lines.text();
    let waits = line_with(&text, "60000 ms, waits");
    let granted = line_with(&text, "after waiting");
    let (third, since) = record(waits, 1);
    assert_eq!(third, 3, "{waits}");
    assert!(since <= &waits[..TIME], "{waits}");
    let (first, later) = record(granted, 2);
    assert_eq!(first, 1, "{granted}");
    assert!(later > &waits[..TIME], "when it was granted: {granted}");
    assert!(later <= &granted[..TIME], "{granted}");
}
