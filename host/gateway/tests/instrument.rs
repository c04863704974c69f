//! Instruments that take their time, are cleared, go away and come back.

mod common;

use std::time::{Duration, Instant};

use common::client::{receive, silent, Client};
use common::scpi_server::{ScpiServer, FLAKY, SLOW};
use common::{eventually, settings, Running};
use gateway::instrument::simulated::Simulated;
use gateway::Settings;

const LONG: Duration = Duration::from_secs(60);
const TIME_OUT: Duration = Duration::from_secs(5);

#[test]
fn a_measurement_takes_its_time_and_others_do_not_wait_for_the_server() {
    let time = Duration::from_millis(300);
    let gateway = Running::measuring(time);
    let (mut a, mut b) = (gateway.open(), gateway.open());
    let start = Instant::now();
    a.send(7, b"MEAS?");
    assert_eq!(a.status(), 0);
    assert_eq!(b.lock_info(), (0, 0));
    assert!(start.elapsed() < time, "answered while it measures");
    assert_eq!(a.answer(), "+1.25000000E+00");
    assert!(start.elapsed() >= time);
}

#[test]
fn a_question_that_comes_too_early_interrupts() {
    let gateway = Running::measuring(Duration::from_millis(50));
    let mut a = gateway.open();
    // Two questions at once: the first one's answer is withheld.
    a.send(7, b"MEAS?");
    a.send(7, b"*IDN?");
    let (one, two) = (receive(&mut a.sync), receive(&mut a.sync));
    assert_eq!((one.kind, one.parameter), (13, a.sent));
    assert_eq!(
        (two.parameter, &two.payload[..7]),
        (a.sent, &b"EXAMPLE"[..])
    );
    let told = receive(&mut a.asynchronous);
    assert_eq!((told.kind, told.parameter), (14, a.sent));
    assert!(gateway.logged("withheld: interrupted by ffffff02"));
}

#[test]
fn an_answer_not_told_as_delivered_interrupts() {
    let gateway = Running::start();
    let mut a = gateway.open();
    a.send(7, b"*IDN?");
    assert!(gateway.logged("answer ffffff00"));
    a.send(7, b"*OPC?");
    let sent = [(); 3].map(|()| receive(&mut a.sync));
    let told = sent.map(|message| (message.kind, message.parameter));
    assert_eq!(told, [(7, a.sent - 2), (13, a.sent), (7, a.sent)]);
    assert!(gateway.logged("interrupted by ffffff02: its RMT-delivered"));
}

#[test]
fn a_device_clear_ends_a_measurement() {
    let settings = Settings {
        instrument_within: LONG,
        ..settings()
    };
    let gateway = Running::with(&settings, Box::new(Simulated::new(LONG)));
    let (mut a, mut b) = (gateway.open(), gateway.open());
    let start = Instant::now();
    a.send(7, b"MEAS?");
    assert!(gateway.logged("MEAS?"));
    b.send(7, b"*IDN?");
    assert!(silent(&mut b.sync), "the instrument is busy");
    a.device_clear();
    assert_eq!(a.query("*OPC?"), "1");
    assert_eq!(b.answer(), "EXAMPLE,SIMULATED METER,0,1.0");
    assert!(start.elapsed() < LONG / 10);
    assert_eq!(a.query("SYST:ERR?"), "+0,\"No error\"");
}

#[test]
fn anothers_device_clear_does_not() {
    let gateway = Running::measuring(Duration::from_millis(300));
    let (mut a, mut b) = (gateway.open(), gateway.open());
    a.send(7, b"MEAS?");
    assert!(gateway.logged("MEAS?"));
    b.send(7, b"MEAS?");
    b.device_clear();
    assert_eq!(a.answer(), "+1.25000000E+00");
    assert!(silent(&mut b.sync), "cleared before it began");
    assert_eq!(b.query("FETC?"), "+1.25000000E+00", "and never measured");
}

#[test]
fn an_answer_for_a_session_already_gone() {
    let gateway = Running::measuring(Duration::from_millis(150));
    let (mut a, mut b) = (gateway.open(), gateway.open());
    a.send(7, b"MEAS?");
    assert!(gateway.logged("MEAS?"));
    drop(a);
    assert!(gateway.logged("answer \"+1.25000000E+00\" dropped: nobody waits for it"));
    assert_eq!(b.query("FETC?"), "+1.25000000E+00");
    assert!(silent(&mut b.sync));
}

#[test]
fn a_measurement_longer_than_the_time_out() {
    let settings = Settings {
        instrument_within: Duration::from_millis(100),
        ..settings()
    };
    let gateway = Running::with(&settings, Box::new(Simulated::new(LONG)));
    let mut a = gateway.open();
    a.send(7, b"MEAS?");
    assert!(gateway.logged("instrument: -365,\"Time out error\""));
    assert!(silent(&mut a.sync), "no reading is invented");
    assert_eq!(a.status(), 4);
    assert_eq!(a.query("SYST:ERR?"), "-365,\"Time out error\"");
}

#[test]
fn an_instrument_on_a_raw_socket() {
    let instrument = ScpiServer::start();
    let gateway = Running::before(instrument.address, TIME_OUT);
    let mut a = gateway.open();
    assert_eq!(a.query("*IDN?\n"), "TEST,SCPI SERVER,1,2");
    a.send(7, b"VOLT 1;DISP \"?\"");
    assert_eq!(a.query("ECHO? 7"), "7");
    a.send(7, b"BLOCK?");
    assert_eq!(
        a.pieces().0,
        b"#18\n\r\n;\"#\n\r",
        "a block may hold line ends"
    );
    assert_eq!(a.query("WINDOWS?"), "1");
    a.send(7, b"LONG?");
    assert_eq!(a.pieces().1, [1024, 1024, 1024, 1024, 904]);
    a.send(12, b"");
    assert!(eventually(|| instrument
        .lines()
        .last()
        .is_some_and(|l| l == "*TRG")));
    assert!(silent(&mut a.sync), "a trigger has no answer here");
    let lines = [
        "*IDN?",
        "VOLT 1;DISP \"?\"",
        "ECHO? 7",
        "BLOCK?",
        "WINDOWS?",
        "LONG?",
        "*TRG",
    ];
    assert_eq!(instrument.lines(), lines);
}

#[test]
fn a_cleared_question_to_a_raw_socket_leaves_no_answer_behind() {
    let instrument = ScpiServer::start();
    let gateway = Running::before(instrument.address, TIME_OUT);
    let mut a = gateway.open();
    a.send(7, b"SLOW? 1");
    assert!(eventually(|| !instrument.lines().is_empty()));
    a.device_clear();
    let start = Instant::now();
    assert_eq!(a.query("ECHO? 2"), "2", "not the late 1");
    assert!(start.elapsed() < SLOW);
    std::thread::sleep(SLOW);
    assert_eq!(a.query("ECHO? 3"), "3");
}

#[test]
fn a_question_to_a_raw_socket_that_is_not_answered() {
    let instrument = ScpiServer::start();
    let gateway = Running::before(instrument.address, SLOW * 3 / 4);
    let mut a = gateway.open();
    a.send(7, b"NEVER?");
    assert!(gateway.logged("instrument: -365,\"Time out error\""));
    assert_eq!(a.status(), 4);
    a.send(7, b"SLOW? 1");
    assert!(eventually(|| gateway.count("-365") >= 2));
    assert_eq!(a.query("ECHO? 2"), "2", "not the late 1");
    std::thread::sleep(SLOW);
    assert_eq!(a.query("ECHO? 3"), "3", "nor after it has come");
    assert_eq!(a.query("SYST:ERR?"), "-365,\"Time out error\"");
    a.send(7, b"*CLS");
    assert!(gateway.logged("status byte is 00"));
    assert_eq!(a.status(), 0);
}

#[test]
fn an_instrument_that_goes_away_and_comes_back() {
    let instrument = ScpiServer::start();
    let gateway = Running::before(instrument.address, TIME_OUT);
    let mut a = gateway.open();
    assert_eq!(a.query("ECHO? 1"), "1");
    a.send(7, b"BYE?");
    assert!(gateway.logged("instrument: -241,\"Hardware missing\""));
    assert!(silent(&mut a.sync));
    assert_eq!(a.query("ECHO? 2"), "2", "a new connection");
    instrument.goes_away();
    a.send(7, b"ECHO? 3");
    assert!(eventually(|| gateway.count("-241") >= 2));
    assert_eq!(a.status(), 4);
    instrument.comes_back();
    assert_eq!(a.query("SYST:ERR?"), "-241,\"Hardware missing\"");
    assert_eq!(a.query("ECHO? 4"), "4");
}

#[test]
fn an_instrument_that_is_not_there() {
    let listener = std::net::TcpListener::bind("127.0.0.1:0").expect("a free port");
    let nobody = listener.local_addr().expect("bound");
    drop(listener);
    let gateway = Running::before(nobody, TIME_OUT);
    let mut a = gateway.open();
    a.send(7, b"*IDN?");
    assert!(gateway.logged("instrument: -241,\"Hardware missing\""));
    assert_eq!(a.query("SYST:ERR?"), "-241,\"Hardware missing\"");
}

/// Asks two questions at once, the second of which is surely answered. Each answer that comes must be
/// that of its MessageID's question. How often the second interrupted the first one's answer, whether
/// that was withheld or is on its way.
fn ask_twice(client: &mut Client, number: u32) -> usize {
    client.send(7, format!("FLAKY? {number}").as_bytes());
    let first = client.sent;
    client.send(7, format!("ECHO? {number}+").as_bytes());
    let mut count = 0;
    loop {
        let answer = receive(&mut client.sync);
        let text = String::from_utf8_lossy(&answer.payload).into_owned();
        if answer.kind == 13 {
            assert_eq!(answer.parameter, client.sent);
            count += 1;
            continue;
        }
        if answer.parameter == client.sent {
            assert_eq!(text, format!("{number}+"));
            client.rmt_delivered = true;
            return count;
        }
        assert_eq!((answer.parameter, text), (first, number.to_string()));
    }
}

#[test]
fn no_answer_is_ever_anothers() {
    let instrument = ScpiServer::start();
    let gateway = Running::before(instrument.address, FLAKY * 2 / 3);
    let clients = [0, 1000, 2000, 3000].map(|from| (from, gateway.open()));
    let asking = clients.map(|(from, mut client)| {
        std::thread::spawn(move || {
            (from..from + 60)
                .map(|n| ask_twice(&mut client, n))
                .sum::<usize>()
        })
    });
    let counts = asking.map(|thread| thread.join().expect("every answer is its question's"));
    // Four in thirty of the first questions are not answered, or more if the machine is slow.
    let (least, most) = (40, 52);
    assert!(
        counts.iter().all(|count| (least..=most).contains(count)),
        "{counts:?}"
    );
}
