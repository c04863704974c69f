//! A full bench, and connections that never begin.

mod common;

use std::io::{Read, Write};
use std::net::TcpStream;
use std::time::{Duration, Instant};

use common::client::{bytes, closed, closed_in_order, connect, receive, silent, Client};
use common::program::Program;
use common::{eventually, settings, Running};
use gateway::instrument::simulated::Simulated;
use gateway::Settings;
use hislip::{CONNECTIONS, SESSIONS};

fn initialize(gateway: &Running) -> TcpStream {
    let mut stream = connect(gateway.address);
    let hello = bytes(0, 0, 0x0100_5858, b"hislip0");
    stream.write_all(&hello).expect("sent");
    stream
}

fn refused(stream: &mut TcpStream) {
    let told = receive(stream);
    assert_eq!((told.kind, told.code, told.parameter), (2, 4, 0));
    assert!(closed_in_order(stream));
}

#[test]
fn the_33rd_program_reads_fatal_error_4() {
    let gateway = Running::start();
    let mut clients: Vec<Client> = (0..SESSIONS).map(|_| gateway.open()).collect();
    for _ in 0..20 {
        let mut stream = initialize(&gateway);
        // It may be slow to read.
        std::thread::sleep(Duration::from_millis(2));
        refused(&mut stream);
    }
    assert!(gateway.logged("FatalError 4 sent: server refused connection"));
    assert_eq!(clients[31].query("*OPC?"), "1");
    drop(clients.pop());
    assert_eq!(gateway.open().session, 33);
}

#[test]
fn those_that_have_only_begun_count() {
    let gateway = Running::start();
    let mut begun: Vec<TcpStream> = Vec::new();
    for _ in 0..SESSIONS {
        let mut stream = initialize(&gateway);
        assert_eq!(receive(&mut stream).kind, 1);
        begun.push(stream);
    }
    refused(&mut initialize(&gateway));
    for round in 0..20 {
        drop(begun.pop());
        let mut stream = initialize(&gateway);
        assert_eq!(receive(&mut stream).kind, 1, "round {round}");
        begun.push(stream);
    }
}

#[test]
fn who_takes_the_place_of_one_just_gone_is_served() {
    let gateway = Running::start();
    let mut clients: Vec<Client> = (0..SESSIONS).map(|_| gateway.open()).collect();
    let mut served = 0;
    for round in 0..50 {
        drop(clients.remove(round % SESSIONS));
        clients.push(gateway.open());
        served += 1;
    }
    assert_eq!(served, 50);
    assert_eq!(gateway.count("FatalError 4"), 0);
    assert!(clients
        .iter_mut()
        .all(|client| client.query("*OPC?") == "1"));
}

#[test]
fn a_connection_that_does_not_initialize_is_closed() {
    let limit = Duration::from_millis(300);
    let settings = Settings {
        initialize_within: limit,
        ..settings()
    };
    let gateway = Running::with(&settings, Box::new(Simulated::new(Duration::ZERO)));
    let mut whole = gateway.open();
    let start = Instant::now();
    let (mut mute, mut half) = (connect(gateway.address), initialize(&gateway));
    let mut slow = connect(gateway.address);
    slow.write_all(b"HS\0\0").expect("sent");
    assert_eq!(receive(&mut half).kind, 1);
    for stream in [&mut mute, &mut half, &mut slow] {
        assert!(closed(stream));
        assert!(start.elapsed() >= limit);
    }
    assert!(start.elapsed() < limit * 5);
    assert!(gateway.logged("cut: not initialized in time"));
    assert!(
        silent(&mut whole.sync),
        "a session with both channels stays"
    );
    assert_eq!(whole.query("*OPC?"), "1");
}

#[test]
fn ten_seconds_by_default() {
    assert_eq!(
        Settings::default().initialize_within,
        Duration::from_secs(10)
    );
}

/// The timer of a connection as Linux shows it: 2 is keepalive.
fn timer(local: u16, remote: u16) -> Option<String> {
    let table = std::fs::read_to_string("/proc/net/tcp").expect("Linux");
    let ends = [
        format!("0100007F:{local:04X}"),
        format!("0100007F:{remote:04X}"),
    ];
    let fields = |line: &str| {
        line.split_whitespace()
            .map(String::from)
            .collect::<Vec<_>>()
    };
    let mut lines = table.lines().map(fields);
    let line = lines.find(|line| line[1..3] == ends)?;
    Some(line[5][..2].into())
}

#[test]
fn a_silent_peer_is_asked_whether_it_is_there() {
    let gateway = Running::start();
    let mut a = gateway.open();
    assert_eq!(a.query("*OPC?"), "1");
    let port = |stream: &TcpStream| stream.local_addr().expect("bound").port();
    for stream in [&a.sync, &a.asynchronous] {
        let asked = || timer(gateway.address.port(), port(stream)).as_deref() == Some("02");
        assert!(eventually(asked));
    }
}

#[test]
fn a_flood_of_connections_is_bounded() {
    let program = Program::start("127.0.0.1:0", &[]);
    let address = program.address.parse().expect("an address");
    let mut first = Client::open(address);
    let flood: Vec<TcpStream> = (0..400)
        .map(|_| {
            let mut stream = connect(address);
            stream.write_all(&[0; 16]).expect("sent");
            stream
        })
        .collect();
    assert_eq!(first.query("*OPC?"), "1");
    let threads = std::fs::read_dir(format!("/proc/{}/task", program.child.id()));
    // Two for each connection and each of 64 that linger, 64 refusals, and the gateway's own.
    let most = 2 * (CONNECTIONS + 64) + 64 + 16;
    let count = threads.expect("a live process").count();
    assert!(count <= most, "{count} threads");
    drop(flood);
    assert!(eventually(|| matches!(opens(address), Some(true))));
}

/// Whether a session can be opened; None if the connection fails.
fn opens(address: std::net::SocketAddr) -> Option<bool> {
    let mut stream = TcpStream::connect(address).ok()?;
    let hello = bytes(0, 0, 0x0100_5858, b"hislip0");
    stream.write_all(&hello).ok()?;
    let mut header = [0; 16];
    stream.read_exact(&mut header).ok()?;
    Some(header[2] == 1)
}
