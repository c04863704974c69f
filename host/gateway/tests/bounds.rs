//! Programs that send without end, do not read, or hang up while they are held.

mod common;

use std::io::{ErrorKind, Write};
use std::net::TcpStream;
use std::time::{Duration, Instant};

use common::client::{bytes, closed, silent, Client};
use common::{eventually, Running};

const PART: usize = 1024;
const PARTS: usize = (1 << 20) / PART;

fn blanks(client: &mut Client, parts: usize) {
    for _ in 0..parts {
        client.send(6, &[b' '; PART]);
    }
}

#[test]
fn a_message_above_a_mebibyte_is_dropped() {
    let gateway = Running::start();
    let (mut a, mut b) = (gateway.open(), gateway.open());
    blanks(&mut a, PARTS - 1);
    assert_eq!(a.query("*OPC?"), "1", "not above");
    blanks(&mut a, PARTS);
    a.send(7, b"*OPC?");
    assert!(gateway.logged("message above 1048576 bytes dropped"));
    assert!(gateway.logged("status byte is 04"));
    assert!(silent(&mut a.sync), "no answer");
    assert_eq!(b.status(), 4);
    assert_eq!(b.query("SYST:ERR?"), "-223,\"Too much data\"");
    assert_eq!(a.query("*OPC?"), "1", "the next message is a new one");
}

#[test]
fn a_device_clear_forgets_the_parts() {
    let gateway = Running::start();
    let mut a = gateway.open();
    blanks(&mut a, PARTS + 10);
    a.device_clear();
    assert_eq!(a.query("*OPC?"), "1");
    assert_eq!(a.query("SYST:ERR?"), "+0,\"No error\"");
}

/// Writes until the gateway takes no more.
fn fill(client: &mut Client, message: &[u8]) {
    let wait = Some(Duration::from_millis(200));
    client.sync.set_write_timeout(wait).expect("not zero");
    loop {
        match client.sync.write_all(message) {
            Ok(()) => {}
            Err(error) => {
                let kind = error.kind();
                assert!(matches!(kind, ErrorKind::WouldBlock | ErrorKind::TimedOut));
                return;
            }
        }
    }
}

#[test]
fn a_program_that_does_not_read_its_answers_stops_being_read() {
    let gateway = Running::start();
    let (mut a, mut b) = (gateway.open(), gateway.open());
    a.send(7, b"FORM REAL;:SAMP:COUN 10000");
    fill(&mut a, &bytes(7, 0, 0, b"READ?"));
    assert_eq!(b.query("*OPC?"), "1", "others go on");
    let session = a.session;
    drop(a);
    assert!(gateway.logged(&format!(" session {session} connection 0 cut")));
    assert_eq!(b.query("*OPC?"), "1");
}

#[test]
fn a_held_program_that_hangs_up_is_noticed() {
    let gateway = Running::start();
    let (mut a, mut b) = (gateway.open(), gateway.open());
    assert_eq!(a.lock(b"cal", 0), 1);
    assert_eq!(b.lock(b"cal", 0), 1);
    assert_eq!(a.lock(b"", 0), 1);
    fill(&mut b, &bytes(7, 0, 0, b"VOLT:RANG 100"));
    assert_eq!(a.lock_info(), (1, 2));
    drop(b);
    assert!(eventually(|| a.lock_info() == (1, 1)));
    assert_eq!(a.query("VOLT:RANG?"), "+1.00000000E+01", "not acted on");
}

#[test]
fn commands_of_a_program_that_closes_are_done() {
    let gateway = Running::start();
    let mut b = gateway.open();
    for last in [1, 10, 1000, 3000] {
        let mut a = gateway.open();
        for count in 1..=last {
            a.send(7, format!("SAMP:COUN {count}").as_bytes());
        }
        drop(a);
        let all_done = || b.query("SAMP:COUN?") == last.to_string();
        assert!(eventually(all_done), "{last} commands");
    }
}

#[test]
fn the_end_of_one_channel_ends_the_session() {
    let gateway = Running::start();
    let mut b = gateway.open();
    for asynchronous in [false, true] {
        let mut a = gateway.open();
        assert_eq!(a.lock(b"", 0), 1);
        b.request(b"", 60_000);
        let start = Instant::now();
        let mut other = match asynchronous {
            true => drop_first(a.asynchronous, a.sync),
            false => drop_first(a.sync, a.asynchronous),
        };
        assert_eq!(b.lock_answer(), 1);
        assert!(start.elapsed() < Duration::from_millis(500));
        assert!(closed(&mut other));
        assert_eq!(b.release(), 1);
    }
}

fn drop_first(one: TcpStream, other: TcpStream) -> TcpStream {
    drop(one);
    other
}

#[test]
fn a_socket_that_fails_is_a_cut() {
    let gateway = Running::start();
    let (mut a, mut b) = (gateway.open(), gateway.open());
    assert_eq!(a.lock(b"", 0), 1);
    b.request(b"", 60_000);
    a.send(7, b"FORM REAL;:SAMP:COUN 100000");
    a.send(7, b"READ?");
    assert!(gateway.logged("READ?"));
    // Closed over unread bytes: the gateway's next write fails.
    drop(a);
    assert_eq!(b.lock_answer(), 1);
    assert!(!closed_soon(&mut b));
}

fn closed_soon(client: &mut Client) -> bool {
    !silent(&mut client.sync) && closed(&mut client.sync)
}
