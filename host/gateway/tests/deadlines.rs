//! Lock requests that run out of time, and a gateway that does nothing while nothing happens.

mod common;

use std::time::{Duration, Instant};

use common::program::Program;
use common::Running;

/// Queries of which the time is taken at once.
const ROUND: u32 = 100;
/// Threads that wake one after the other between a question and its answer, with some to spare.
const WAKINGS: f64 = 8.0;

/// How many milliseconds later than said something ended, each time: sorted.
fn lateness(mut waits: impl FnMut(u32)) -> Vec<f64> {
    let late = (20..40).map(|milliseconds| {
        let start = Instant::now();
        waits(milliseconds);
        start.elapsed().as_secs_f64() * 1000.0 - f64::from(milliseconds)
    });
    let mut late: Vec<f64> = late.collect();
    late.sort_by(f64::total_cmp);
    late
}

#[test]
fn requests_run_out_of_time_when_they_said() {
    let gateway = Running::start();
    let (mut a, mut b) = (gateway.open(), gateway.open());
    assert_eq!(a.lock(b"", 0), 1);
    let late = lateness(|wait| assert_eq!(b.lock(b"", wait), 0));
    // The machine may be busy: the test's own sleeps say how late threads wake. One in four may be later.
    let slept = lateness(|wait| std::thread::sleep(Duration::from_millis(wait.into())));
    let usual = late.len() * 3 / 4;
    let bound = f64::max(2.0, WAKINGS * slept[usual]);
    assert!(late[usual] < bound, "{late:?}, where sleeps took {slept:?}");
    // The server counts whole milliseconds, so a request may end up to one early.
    assert!(late[0] >= -1.0, "{late:?}");
}

#[test]
fn two_requests_each_in_its_time() {
    let gateway = Running::start();
    let (mut a, mut b, mut c) = (gateway.open(), gateway.open(), gateway.open());
    assert_eq!(a.lock(b"", 0), 1);
    let start = Instant::now();
    b.request(b"", 400);
    c.request(b"", 100);
    assert_eq!(c.lock_answer(), 0);
    assert!(
        start.elapsed() < Duration::from_millis(400),
        "before the other"
    );
    assert_eq!(b.lock_answer(), 0);
    assert!(start.elapsed() >= Duration::from_millis(399));
    assert!(
        gateway.logged(" session 3 AsyncLockResponse 0 after waiting; locks: 1 exclusive, 2 waits")
    );
}

/// Hundredths of a second of processor time.
fn processor_time(pid: u32) -> u64 {
    let stat = std::fs::read_to_string(format!("/proc/{pid}/stat")).expect("a live process");
    let after = stat.rsplit(')').next().expect("fields");
    let times = after.split_whitespace().skip(11).take(2);
    times
        .map(|time| time.parse::<u64>().expect("a number"))
        .sum()
}

#[test]
fn an_idle_gateway_uses_no_processor() {
    let program = Program::start("127.0.0.1:0", &[]);
    let address = program.address.parse().expect("an address");
    let (mut a, mut b) = (
        common::client::Client::open(address),
        common::client::Client::open(address),
    );
    assert_eq!(a.lock(b"", 0), 1);
    b.request(b"", 60_000);
    std::thread::sleep(Duration::from_millis(100));
    let before = processor_time(program.child.id());
    std::thread::sleep(Duration::from_secs(2));
    let used = processor_time(program.child.id()) - before;
    assert!(used <= 1, "{used} hundredths of a second in two seconds");
}

#[test]
fn many_queries_in_a_short_time() {
    let program = Program::start("127.0.0.1:0", &["--log", "/dev/null"]);
    let mut a = common::client::Client::open(program.address.parse().expect("an address"));
    // 10,000 a second are owed on a free machine, optimised; tests are neither, but a gateway that polls or
    // that waits for its log would be slow in every round.
    let fast = |_| {
        let start = Instant::now();
        (0..ROUND).for_each(|_| drop(a.query("*IDN?")));
        f64::from(ROUND) / start.elapsed().as_secs_f64() > 500.0
    };
    assert!((0..50).any(fast), "never 500 queries a second");
}
