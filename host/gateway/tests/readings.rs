//! Readings under watch, over TCP: the simulated meter sends blocks, and the first reading beyond the limits
//! requests service.

mod common;

use common::client::{receive, silent, Client};
use common::program::{run, Program};
use common::{settings, Running};
use gateway::instrument::simulated::Simulated;
use gateway::Settings;
use hislip::Watch;
use std::time::Duration;

const SERVICE_REQUEST: u8 = 20;
/// The meter reads an eighth of its range.
const RANGE_10: f32 = 1.25;

fn watching(watch: Watch) -> Running {
    let settings = Settings {
        watch,
        ..settings()
    };
    Running::with(&settings, Box::new(Simulated::new(Duration::ZERO)))
}

/// One reading as a block of one float.
fn read(client: &mut Client) -> f32 {
    client.send(7, b"READ?");
    let (bytes, _) = client.pieces();
    let reading = bytes.strip_prefix(b"#14").expect("a block of one float");
    f32::from_be_bytes(reading.try_into().expect("four bytes"))
}

fn reading_floats(gateway: &Running) -> Client {
    let mut client = gateway.open();
    client.send(7, b"FORM REAL");
    client
}

/// The code of the service request that has come.
fn requested(client: &mut Client) -> u8 {
    let request = receive(&mut client.asynchronous);
    assert_eq!((request.kind, request.parameter), (SERVICE_REQUEST, 0));
    assert_eq!(request.payload, b"");
    request.code
}

#[test]
fn the_first_reading_beyond_the_limit_requests_service() {
    let gateway = watching(Watch::Above { limit: 1.0 });
    let mut client = reading_floats(&gateway);
    assert!((read(&mut client) - RANGE_10).abs() < 1e-3);
    assert_eq!(requested(&mut client), 0x50);
    assert!(gateway.logged(
        "session 1 service requested, status byte 50: readings 1.25 to 1.25 so far, last 1.25"
    ));
    read(&mut client);
    assert!(silent(&mut client.asynchronous), "once");
    client.send(7, b"VOLT:RANG 4");
    assert!((read(&mut client) - 0.5).abs() < 1e-3);
    assert!(silent(&mut client.asynchronous));
}

/// Who has asked for the status byte has seen the request, and is told of the next.
#[test]
fn a_status_query_sets_the_watch_again() {
    let gateway = watching(Watch::Outside {
        low: 0.0,
        high: 1.0,
    });
    let mut client = reading_floats(&gateway);
    for _ in 0..3 {
        read(&mut client);
        assert_eq!(requested(&mut client), 0x50);
        client.status();
    }
    client.status();
    read(&mut client);
    requested(&mut client);
    client.device_clear();
    read(&mut client);
    assert!(silent(&mut client.asynchronous), "a clear sets nothing");
}

#[test]
fn each_session_has_a_watch_of_its_own() {
    let gateway = watching(Watch::Above { limit: 1.0 });
    let (mut first, mut second) = (reading_floats(&gateway), reading_floats(&gateway));
    read(&mut first);
    requested(&mut first);
    assert!(silent(&mut second.asynchronous));
    read(&mut second);
    requested(&mut second);
    drop(first);
    let mut third = reading_floats(&gateway);
    read(&mut third);
    requested(&mut third);
}

#[test]
fn readings_as_text_and_no_watch_request_nothing() {
    let gateway = watching(Watch::Above { limit: 1.0 });
    let mut client = gateway.open();
    assert_eq!(client.query("READ?"), "+1.25000000E+00");
    assert!(silent(&mut client.asynchronous));
    let unwatched = Running::start();
    let mut client = reading_floats(&unwatched);
    read(&mut client);
    assert!(silent(&mut client.asynchronous));
}

/// A block of 250 readings is looked into; one of 251 is no block that the watch knows.
#[test]
fn a_block_has_at_most_250_readings() {
    let gateway = watching(Watch::Above { limit: 1.0 });
    let mut client = reading_floats(&gateway);
    client.send(7, b"SAMP:COUN 251");
    client.send(7, b"READ?");
    assert_eq!(client.pieces().0.len(), 6 + 1_004);
    assert!(silent(&mut client.asynchronous));
    client.send(7, b"SAMP:COUN 250");
    client.send(7, b"READ?");
    assert_eq!(client.pieces().0.len(), 6 + 1_000);
    requested(&mut client);
}

#[test]
fn the_watch_on_the_command_line() {
    let program = Program::start("127.0.0.1:0", &["--watch", "-1,1"]);
    let mut client = Client::open(program.address.parse().expect("an address"));
    client.send(7, b"FORM REAL");
    read(&mut client);
    assert_eq!(requested(&mut client), 0x50);
    let (code, _, said) = run(&["--watch", "1,-1"]);
    assert_eq!(code, Some(2));
    assert!(
        said.contains("--watch wants LIMIT or LOW,HIGH, not `1,-1`"),
        "{said}"
    );
}
