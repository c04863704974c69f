//! The log as a picture: whatever the gateway writes, the timeline reads.

mod common;

use std::io::Write;
use std::time::Duration;

use common::client::{bytes, closed, receive};
use common::Running;
use gateway::instrument::simulated::Simulated;
use timeline::draw_log;
use timeline::log::{is_log, Window};

/// What the boxes of a class say; the last one is the legend's.
fn boxes<'a>(picture: &'a str, class: &str) -> Vec<&'a str> {
    let class = format!("class=\"{class}\"");
    let lines = picture.lines().filter(|line| line.contains(&class));
    let says = lines.filter_map(|line| line.split("<title>").nth(1)?.split("</title>").next());
    says.collect()
}

#[test]
fn the_log_of_two_programs_is_drawn() {
    let gateway = Running::start();
    let (mut a, mut b) = (gateway.open(), gateway.open());
    assert_eq!(a.lock(b"", 0), 1);
    b.request(b"cal; \"x, 1", 5000);
    b.send(7, b"READ?");
    assert!(gateway.logged(" session 2 DataEND ffffff00 held"));
    a.query("MEAS:VOLT:DC?");
    a.release_ahead();
    assert!(gateway.logged("stands"));
    a.query("*IDN?");
    assert_eq!((a.lock_answer(), b.lock_answer()), (1, 1));
    b.answer();
    drop(b);
    assert!(gateway.logged("session 2 connection 2 cut"));
    let log = gateway.lines.text();
    assert!(is_log(&log));
    let picture = draw_log(&log, Window::default()).expect("its own log");
    for (class, says) in [
        ("exclusive", "exclusive"),
        ("stands", "release stands for ffffff02"),
        ("waits", "waits"),
        ("held", "ffffff00 held"),
        ("shared", "shared &quot;cal; \\&quot;x, 1&quot;"),
    ] {
        let [one, _] = boxes(&picture, class)[..] else {
            panic!("{class}\n{log}");
        };
        assert_eq!(one, says);
    }
    let readings = boxes(&picture, "reading");
    assert_eq!(readings.len(), 3 + 1, "{log}");
    assert!(readings[0].contains(" session 1 answer ffffff00 &quot;+1.25"));
}

#[test]
fn every_kind_of_line_is_read() {
    let meter = Simulated::new(Duration::from_millis(20));
    let gateway = Running::with(&common::settings(), Box::new(meter));
    let mut a = gateway.open();
    a.query("*IDN?;:SYST:ERR?;*OPC?");
    a.send(6, &[b'"'; 300]);
    a.send(7, b"\\ \"; locks: 9 exclusive");
    a.send(12, b"");
    a.answer();
    a.device_clear();
    a.send(99, b"");
    assert_eq!(receive(&mut a.sync).kind, 3);
    a.status();
    a.size(5000);
    let mut b = gateway.open();
    b.send(7, b"READ?");
    drop(b);
    assert!(gateway.logged("dropped: nobody waits for it"));
    a.sync.write_all(b"GET / HTTP/1.1\r\n\r\n").expect("sent");
    assert_eq!(receive(&mut a.sync).kind, 2);
    assert!(closed(&mut a.sync));
    let mut c = gateway.open();
    let fatal = bytes(2, 0, 0, b"over");
    c.sync.write_all(&fatal).expect("sent");
    assert!(gateway.logged("session closed by the program"));
    let log = gateway.lines.text();
    let picture = draw_log(&log, Window::default()).expect("its own log");
    assert_eq!(boxes(&picture, "exclusive").len(), 1, "the legend\n{log}");
    assert_eq!(boxes(&picture, "lives").len(), 3, "{log}");
}
