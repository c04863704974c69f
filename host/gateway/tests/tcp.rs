//! The protocol over TCP: queries, locks, device clear, cuts.

mod common;

use std::io::Write;
use std::thread::spawn;
use std::time::{Duration, Instant};

use common::client::{bytes, closed, closed_in_order, receive, silent, Client, FIRST};
use common::Running;
use gateway::instrument::simulated::Simulated;

const RANGE: &str = "+1.00000000E+01";
const READING_1: &str = "+1.25000000E+00";
const READING_2: &str = "+1.25000001E+00";

#[test]
fn open_and_query() {
    let gateway = Running::start();
    let mut a = gateway.open();
    assert_eq!(a.session, 1);
    assert_eq!(a.query("*idn?"), "EXAMPLE,SIMULATED METER,0,1.0");
    assert_eq!(a.sent, FIRST);
    assert_eq!(a.query("MEAS:VOLT:DC?"), "+1.25000000E+00");
    a.send(7, b"VOLTage:RANGe 1");
    assert_eq!(a.query("volt:rang?"), "+1.00000000E+00");
    assert_eq!(a.query("READ?"), "+1.25000001E-01");
    assert!(gateway.logged(" session 1 DataEND ffffff00 \"*idn?\"; no locks"));
    assert!(gateway.logged(" session 1 answer ffffff06 \"+1.00000000E+00\"; no locks"));
}

#[test]
fn a_message_in_parts_and_in_single_bytes() {
    let gateway = Running::start();
    let mut a = gateway.open();
    a.send(6, b"MEAS:");
    a.send(6, b"VOLT:");
    assert_eq!(a.query("DC?"), READING_1);
    a.sent = a.sent.wrapping_add(2);
    for byte in bytes(7, 1, a.sent, b"*IDN?") {
        a.sync.write_all(&[byte]).expect("sent");
        std::thread::sleep(Duration::from_millis(1));
    }
    assert!(a.answer().contains("SIMULATED"));
}

#[test]
fn trigger_and_status() {
    let gateway = Running::start();
    let mut a = gateway.open();
    assert_eq!(a.status(), 0);
    a.send(7, b"NONSENSE");
    assert!(gateway.logged("NONSENSE"));
    assert!(gateway.logged("status byte is 04"));
    assert_eq!(a.status(), 4, "the meter did not understand");
    assert_eq!(a.query("*STB?"), "4");
    assert_eq!(a.query("SYST:ERR?"), "-113,\"Undefined header\"");
    assert_eq!(a.query("SYST:ERR?"), "+0,\"No error\"");
    a.send(12, b"");
    assert_eq!(a.answer(), READING_1);
    a.send(12, b"");
    assert!(silent(&mut a.asynchronous));
    assert_eq!(a.status() & 4, 0);
    assert_eq!(a.answer(), READING_2);
}

#[test]
fn message_available_until_delivered() {
    let gateway = Running::start();
    let mut a = gateway.open();
    a.send(7, b"*IDN?");
    assert!(gateway.logged("answer ffffff00"));
    assert_eq!(a.status(), 16, "sent, not yet delivered");
    a.answer();
    assert_eq!(a.status(), 0, "told that it was delivered");
}

#[test]
fn two_programs_with_locks() {
    let gateway = Running::start();
    let (mut a, mut b) = (gateway.open(), gateway.open());
    assert_eq!(a.lock(b"", 0), 1);
    assert_eq!(b.lock(b"", 0), 0);
    assert_eq!(b.lock_info(), (1, 1));
    b.send(7, b"READ?");
    assert!(gateway.logged(" session 2 DataEND ffffff00 held; locks: 1 exclusive"));
    assert!(silent(&mut b.sync), "held");
    a.send(7, b"VOLT:RANG 100");
    assert_eq!(a.query("READ?"), "+1.25000000E+01");
    b.request(b"cal", 5000);
    assert!(silent(&mut b.asynchronous), "waits");
    assert_eq!(a.release(), 1);
    assert_eq!(b.lock_answer(), 1, "granted by the release");
    assert_eq!(b.answer(), "+1.25000001E+01");
    assert!(gateway.logged("2 shared \"cal\""));
    assert_eq!(a.lock(b"cal", 0), 1);
    assert_eq!(a.lock_info(), (0, 2));
    assert_eq!((b.release(), b.release()), (2, 3));
}

#[test]
fn overlap_mode() {
    let settings = gateway::Settings {
        prefers: hislip::Mode::Overlap,
        ..common::settings()
    };
    let meter = Simulated::new(Duration::ZERO);
    let gateway = Running::with(&settings, Box::new(meter));
    let mut a = gateway.open();
    assert!(a.overlap);
    a.send(7, b"*IDN?");
    a.send(7, b"SAMP:COUN?");
    let (first, second) = (receive(&mut a.sync), receive(&mut a.sync));
    assert_eq!((first.kind, first.parameter), (7, FIRST));
    assert_eq!((second.kind, second.parameter), (7, FIRST + 2));
    assert_eq!(a.status_after(FIRST) & 16, 16, "one is not delivered");
    assert_eq!(a.status_after(FIRST + 2) & 16, 0);
    a.device_clear();
    assert!(!a.overlap, "the client asks for synchronized");
    assert_eq!(a.query("*OPC?"), "1");
}

#[test]
fn a_release_waits_for_its_message() {
    let gateway = Running::start();
    let (mut a, mut b) = (gateway.open(), gateway.open());
    assert_eq!(a.lock(b"", 0), 1);
    b.request(b"", 60_000);
    assert!(gateway.logged(" session 2 AsyncLock exclusive, 60000 ms, waits"));
    a.release_ahead();
    assert!(gateway.logged(
        "AsyncLock release after ffffff00, stands; \
         locks: 1 exclusive, 1 release stands for ffffff00, 2 waits"
    ));
    assert!(silent(&mut a.asynchronous) && silent(&mut b.asynchronous));
    assert_eq!(a.lock(b"", 0), 3, "while it stands");
    a.send(7, b"*IDN?");
    assert_eq!((a.lock_answer(), b.lock_answer()), (1, 1));
    assert!(gateway.logged("session 1 AsyncLockResponse 1 after standing; locks: 2 exclusive"));
    assert!(gateway.logged("session 2 AsyncLockResponse 1 after waiting; locks: 2 exclusive"));
    a.answer();
}

#[test]
fn a_device_clear_lets_a_standing_release_act() {
    let gateway = Running::start();
    let (mut a, mut b) = (gateway.open(), gateway.open());
    assert_eq!(a.lock(b"cal", 0), 1);
    b.request(b"", 60_000);
    a.release_ahead();
    assert_eq!(a.device_clear(), [2]);
    assert_eq!(b.lock_answer(), 1);
    assert_eq!((a.release(), b.release()), (3, 1));
}

#[test]
fn a_waiting_request_runs_out_of_time() {
    let gateway = Running::start();
    let (mut a, mut b) = (gateway.open(), gateway.open());
    assert_eq!(a.lock(b"", 0), 1);
    let start = Instant::now();
    assert_eq!(b.lock(b"", 150), 0);
    let waited = start.elapsed();
    assert!(waited >= Duration::from_millis(149), "{waited:?}");
    assert!(waited < Duration::from_secs(3), "{waited:?}");
}

#[test]
fn device_clear() {
    let gateway = Running::start();
    let (mut a, mut b) = (gateway.open(), gateway.open());
    a.send(6, b"MEAS:VO");
    a.device_clear();
    assert_eq!(
        a.query("*IDN?"),
        "EXAMPLE,SIMULATED METER,0,1.0",
        "the part is gone"
    );
    assert_eq!(a.sent, FIRST, "numbers begin again");
    // What was held is cleared too.
    assert_eq!(a.lock(b"", 0), 1);
    b.send(7, b"MEAS:VOLT:DC?");
    assert!(gateway.logged(" session 2 DataEND ffffff00 held"));
    b.device_clear();
    assert_eq!(a.release(), 1);
    assert!(silent(&mut b.sync), "the held question is gone");
    assert_eq!(b.query("MEAS:VOLT:DC?"), READING_1);
}

#[test]
fn a_cable_pulled_in_the_middle_of_a_message() {
    let gateway = Running::start();
    let (mut a, mut b) = (gateway.open(), gateway.open());
    assert_eq!(a.lock(b"cal", 0), 1);
    assert_eq!(a.lock(b"", 0), 1);
    b.request(b"", 60_000);
    assert!(gateway.logged(" session 2 AsyncLock exclusive, 60000 ms, waits"));
    let command = bytes(7, 0, FIRST, b"VOLT:RANG 1000");
    let cut_after = command.len() - 1;
    a.sync.write_all(&command[..cut_after]).expect("sent");
    let Client {
        sync,
        mut asynchronous,
        ..
    } = a;
    drop(sync);
    assert_eq!(
        b.lock_answer(),
        1,
        "both locks of the lost program are gone"
    );
    assert!(closed(&mut asynchronous), "its other channel is closed");
    assert_eq!(b.query("VOLT:RANG?"), RANGE, "the cut command did not act");
    assert!(gateway.logged(" session 1 connection 0 cut: the program closed it"));
    assert!(gateway.logged(" session 2 AsyncLockResponse 1 after waiting; locks: 2 exclusive"));
    let mut c = gateway.open();
    assert_eq!(c.session, 3);
    assert_eq!(c.lock(b"", 0), 0);
}

#[test]
fn a_cut_after_every_byte() {
    let gateway = Running::start();
    let command = bytes(7, 0, FIRST, b"VOLT:RANG 2");
    for cut_after in 0..command.len() {
        let mut a = gateway.open();
        a.sync.write_all(&command[..cut_after]).expect("sent");
    }
    assert_eq!(gateway.open().query("VOLT:RANG?"), RANGE);
}

#[test]
fn bytes_that_are_no_message() {
    let gateway = Running::start();
    let (mut a, mut b) = (gateway.open(), gateway.open());
    a.sync.write_all(b"GET / HTTP/1.1\r\n").expect("sent");
    // It goes on sending after the FatalError was sent: nothing of that is lost by it.
    a.sync.peek(&mut [0]).expect("the FatalError");
    for _ in 0..10 {
        a.sync.write_all(&[0; 5000]).expect("sent");
        std::thread::sleep(Duration::from_millis(5));
    }
    for stream in [&mut a.sync, &mut a.asynchronous] {
        let fatal = receive(stream);
        assert_eq!((fatal.kind, fatal.code), (2, 1));
        assert!(closed_in_order(stream));
    }
    let line = " session 1 no HiSLIP header: FatalError 1 sent: poorly formed message header";
    assert!(gateway.logged(line));
    assert!(
        b.query("*IDN?").contains("METER"),
        "the other program goes on"
    );
}

#[test]
fn many_questions_of_two_programs_at_once() {
    let gateway = Running::start();
    let ask = |mut client: Client| {
        move || {
            for _ in 0..200 {
                let reading = client.query("MEAS:VOLT:DC?").parse::<f64>();
                assert!(reading.is_ok_and(|volts| volts >= 1.25));
            }
        }
    };
    let threads = [gateway.open(), gateway.open()].map(|client| spawn(ask(client)));
    for thread in threads {
        thread
            .join()
            .expect("every answer had its question's number");
    }
    let reading = gateway.open().query("MEAS:VOLT:DC?");
    assert_eq!(reading, "+1.25000400E+00", "the 401st");
}
