//! The program: options, signals, and a log that nobody reads.

mod common;

use std::ffi::OsStr;
use std::io::Read;
use std::net::{SocketAddr, TcpStream};
use std::os::unix::ffi::OsStrExt;
use std::process::Stdio;
use std::time::Duration;

use common::client::{closed_in_order, receive, Client};
use common::eventually;
use common::program::{gateway, run, Program};

fn client(program: &Program) -> Client {
    Client::open(program.address.parse().expect("an address"))
}

#[test]
fn help_is_status_0_and_a_wrong_option_status_2() {
    let (status, out, err) = run(&["--help"]);
    assert_eq!((status, &err[..]), (Some(0), ""));
    assert!(out.starts_with("usage: gateway"));
    for (arguments, line) in [
        (&["--what"][..], "unknown option --what"),
        (&["4880"], "unknown option 4880"),
        (&["--listen"], "--listen wants a value"),
        (
            &["--listen", "here"],
            "--listen wants ADDR:PORT, not `here`",
        ),
        (
            &["--vendor", "XYZ"],
            "--vendor wants two letters, not `XYZ`",
        ),
        (
            &["--measure-ms", "-1"],
            "--measure-ms wants milliseconds, not `-1`",
        ),
        (
            &["--instrument", "usb"],
            "--instrument wants tcp://HOST:PORT, not `usb`",
        ),
    ] {
        let (status, out, err) = run(arguments);
        assert_eq!((status, &out[..]), (Some(2), ""), "{arguments:?}");
        assert_eq!(err, format!("gateway: {line}; gateway --help says how\n"));
    }
}

#[test]
fn an_option_that_is_no_text_is_status_2() {
    let mut command = gateway(&["--log"]);
    let output = command.arg(OsStr::from_bytes(b"gateway\xff.log")).output();
    let output = output.expect("the program runs");
    assert_eq!(output.status.code(), Some(2));
    let line = "gateway: `gateway\u{fffd}.log` is no UTF-8; gateway --help says how\n";
    assert_eq!(String::from_utf8_lossy(&output.stderr), line);
}

#[test]
fn a_port_that_is_taken_is_status_1() {
    let taken = std::net::TcpListener::bind("127.0.0.1:0").expect("a free port");
    let address = taken.local_addr().expect("bound").to_string();
    let (status, _, err) = run(&["--listen", &address]);
    assert_eq!(status, Some(1));
    assert!(
        err.starts_with(&format!("gateway: cannot listen on {address}: ")),
        "{err}"
    );
    assert_eq!(err.lines().count(), 1);
}

#[test]
fn a_log_that_cannot_be_written_is_status_1() {
    let (status, _, err) = run(&["--log", "/nowhere/gateway.log", "--listen", "127.0.0.1:0"]);
    assert_eq!(status, Some(1));
    assert!(
        err.starts_with("gateway: cannot write /nowhere/gateway.log: "),
        "{err}"
    );
}

fn ends_in_order(signal: &str, name: &str) {
    let mut program = Program::start("127.0.0.1:0", &[]);
    let mut a = client(&program);
    assert_eq!(a.lock(b"", 0), 1);
    program.signal(signal);
    for stream in [&mut a.sync, &mut a.asynchronous] {
        assert!(closed_in_order(stream));
    }
    drop(a);
    assert_eq!(program.ended().and_then(|status| status.code()), Some(0));
    let printed = program.printed();
    let last = printed.lines().last().expect("lines");
    let line = format!("gateway ends: {name}; 2 connections cut");
    assert!(last.ends_with(&line), "{last}");
}

#[test]
fn sigterm_ends_it_in_order() {
    ends_in_order("TERM", "SIGTERM");
}

#[test]
fn ctrl_c_ends_it_in_order() {
    ends_in_order("INT", "Ctrl-C");
}

#[test]
fn ipv6_and_another_vendor() {
    let program = Program::start("[::1]:0", &["--vendor", "ZZ"]);
    let address: SocketAddr = program.address.parse().expect("an address");
    assert!(address.is_ipv6());
    let mut a = Client::of_vendor(address, *b"ZZ");
    assert_eq!(a.query("*OPC?"), "1");
}

#[test]
fn measuring_takes_the_time_that_was_named() {
    let program = Program::start("127.0.0.1:0", &["--measure-ms", "200"]);
    let mut a = client(&program);
    let start = std::time::Instant::now();
    assert_eq!(a.query("READ?"), "+1.25000000E+00");
    assert!(start.elapsed() >= Duration::from_millis(200));
}

#[test]
fn a_raw_socket_as_an_option() {
    let instrument = common::scpi_server::ScpiServer::start();
    let url = format!("tcp://{}", instrument.address);
    let program = Program::start("127.0.0.1:0", &["--instrument", &url]);
    assert_eq!(client(&program).query("*IDN?"), "TEST,SCPI SERVER,1,2");
}

/// Enough lines to fill a pipe and the queue.
const MANY: usize = 12_000;

#[test]
fn a_blocked_standard_output_stops_nothing() {
    let mut program = Program::start("127.0.0.1:0", &[]);
    let mut a = client(&program);
    for _ in 0..MANY {
        assert_eq!(a.query("*OPC?"), "1");
    }
    // Once it is read again, a line says how many were lost.
    let mut output = program.output.take().expect("not yet read");
    let reader = std::thread::spawn(move || {
        let mut text = String::new();
        let _ = output.read_to_string(&mut text);
        text
    });
    assert!(eventually(|| {
        std::thread::sleep(Duration::from_millis(20));
        a.query("*OPC?") == "1"
    }));
    std::thread::sleep(Duration::from_millis(300));
    assert_eq!(a.query("*OPC?"), "1");
    program.signal("TERM");
    assert_eq!(program.ended().and_then(|status| status.code()), Some(0));
    let text = reader.join().expect("read to the end");
    assert!(text.contains(" lines dropped"), "lost lines are counted");
}

#[test]
fn it_ends_although_standard_output_is_blocked() {
    let mut program = Program::start("127.0.0.1:0", &[]);
    let mut a = client(&program);
    for _ in 0..MANY / 4 {
        a.query("*OPC?");
    }
    program.signal("TERM");
    assert_eq!(program.ended().and_then(|status| status.code()), Some(0));
}

#[test]
fn a_closed_standard_output_stops_nothing() {
    let mut program = Program::start("127.0.0.1:0", &[]);
    drop(program.output.take());
    let mut a = client(&program);
    for _ in 0..100 {
        assert_eq!(a.query("*OPC?"), "1");
        std::thread::sleep(Duration::from_millis(1));
    }
    assert!(program.child.try_wait().expect("a child").is_none());
}

#[test]
fn quiet_with_a_log_file() {
    let name = format!("gateway-test-{}.log", std::process::id());
    let file = std::env::temp_dir().join(name);
    let name = file.to_str().expect("a plain name");
    let listen = free_address();
    let mut child = gateway(&["--quiet", "--log", name, "--listen", &listen])
        .stdout(Stdio::piped())
        .spawn()
        .expect("the program starts");
    assert!(eventually(|| TcpStream::connect(&listen).is_ok()));
    let mut a = Client::open(listen.parse().expect("an address"));
    assert_eq!(a.lock(b"cal", 0), 1);
    a.query("MEAS?");
    a.send(99, b"");
    assert_eq!(receive(&mut a.sync).kind, 3);
    let text = || std::fs::read_to_string(&file).unwrap_or_default();
    assert!(eventually(|| text().contains("Error 1 sent")));
    child.kill().expect("alive");
    child.wait().expect("a child");
    let mut out = String::new();
    child
        .stdout
        .take()
        .expect("piped")
        .read_to_string(&mut out)
        .expect("text");
    assert_eq!(out, "");
    let lines = text();
    std::fs::remove_file(&file).expect("there");
    check_lines(&lines, &a.sync.local_addr().expect("bound").to_string());
}

fn free_address() -> String {
    let listener = std::net::TcpListener::bind("127.0.0.1:0").expect("a free port");
    listener.local_addr().expect("bound").to_string()
}

/// What a signer needs: time, peer, session, type, MessageID, command or reading, locks.
fn check_lines(lines: &str, peer: &str) {
    for line in lines.lines() {
        let (time, rest) = line.split_once(' ').expect("a time");
        assert_eq!(
            (time.len(), &time[10..11], &time[23..]),
            (24, "T", "Z"),
            "{line}"
        );
        assert!(rest.contains(';') || rest.starts_with("gateway"), "{line}");
    }
    let (_, since) = lines.split_once("1 lock 1 at ").expect("a lock is held");
    let locks = format!("locks: 1 shared \"cal\", 1 lock 1 at {}", &since[..24]);
    for line in [
        format!(" {peer} session 1 Initialize \"hislip0\"; no locks\n"),
        format!(" session 1 AsyncLock shared \"cal\", 0 ms, answered 1; {locks}\n"),
        format!(" {peer} session 1 DataEND ffffff00 \"MEAS?\"; {locks}\n"),
        format!(" {peer} session 1 answer ffffff00 \"+1.25000000E+00\"; {locks}\n"),
        format!(" {peer} session 1 type 99: Error 1 sent: unrecognized message type; {locks}\n"),
    ] {
        assert!(lines.contains(&line), "{line}\nnot in\n{lines}");
    }
}
