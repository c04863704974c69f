//! Answers of every length, for clients of every size.

mod common;

use std::time::Duration;

use common::client::{silent, Client};
use common::Running;

/// A block of so many floats, read in pieces.
fn block(client: &mut Client, floats: usize) -> (Vec<u8>, Vec<usize>) {
    let setting = format!("FORM REAL,32;:SAMP:COUN {floats}");
    client.send(7, setting.as_bytes());
    client.send(7, b"READ?");
    let (bytes, pieces) = client.pieces();
    let count = (4 * floats).to_string();
    let head = format!("#{}{count}", count.len());
    assert!(bytes.starts_with(head.as_bytes()));
    assert_eq!(bytes.len(), head.len() + 4 * floats);
    for float in bytes[head.len()..].chunks(4) {
        let volts = f32::from_be_bytes(float.try_into().expect("four bytes"));
        assert!((1.25..1.26).contains(&volts), "{volts}");
    }
    (bytes, pieces)
}

#[test]
fn a_long_answer_is_cut_into_messages() {
    let gateway = Running::start();
    let mut a = gateway.open();
    let (bytes, pieces) = block(&mut a, 1000);
    assert_eq!(bytes.len(), 4006);
    assert_eq!(pieces, [1024, 1024, 1024, 934]);
    assert_eq!(a.query("*IDN?"), "EXAMPLE,SIMULATED METER,0,1.0");
    assert!(gateway.logged("(4006 bytes)"));
}

#[test]
fn just_as_long_as_a_message() {
    let gateway = Running::start();
    let mut a = gateway.open();
    assert_eq!(block(&mut a, 254).1, [1022]);
    assert_eq!(block(&mut a, 255).1, [1024, 2]);
    // 62 readings are 991 bytes, the sample count 3 with its semicolon, each 1 two: 1,024 in all.
    a.send(7, b"FORM ASC;:SAMP:COUN 62");
    let query = format!("READ?;SAMP:COUN?{}", ";*OPC?".repeat(15));
    a.send(7, query.as_bytes());
    assert_eq!(a.pieces().1, [1024], "no empty DataEND after it");
    a.send(7, format!("{query};*OPC?").as_bytes());
    assert_eq!(a.pieces().1, [1024, 2]);
}

#[test]
fn no_piece_is_above_the_clients_size() {
    let gateway = Running::start();
    let mut a = gateway.open();
    for size in [1000, 100, 7, 1] {
        assert_eq!(a.size(size), 1024);
        let (bytes, pieces) = block(&mut a, 300);
        let (last, full) = pieces.split_last().expect("pieces");
        assert!(full.iter().all(|length| *length as u64 == size));
        assert!(*last > 0 && *last as u64 <= size && bytes.len() == 1206);
    }
    assert_eq!(a.size(1 << 40), 1024);
    assert_eq!(block(&mut a, 300).1, [1024, 182], "the server's own limit");
    assert_eq!(
        gateway.open().query("*OPC?"),
        "1",
        "sizes are each session's"
    );
}

#[test]
fn a_client_that_takes_nothing_sees_an_error() {
    let gateway = Running::start();
    let mut a = gateway.open();
    a.size(0);
    a.send(7, b"*IDN?");
    assert!(gateway.logged("answer lost: the client takes no payload"));
    assert!(gateway.logged("status byte is 04"));
    assert_eq!(a.status(), 4);
    assert!(silent(&mut a.sync));
    a.size(1024);
    assert_eq!(a.query("SYST:ERR?"), "-223,\"Too much data\"");
}

#[test]
fn a_large_answer_to_a_slow_reader() {
    let gateway = Running::start();
    let (mut a, mut b) = (gateway.open(), gateway.open());
    a.size(16);
    a.send(7, b"FORM REAL;:SAMP:COUN 100000");
    a.send(7, b"READ?");
    std::thread::sleep(Duration::from_millis(100));
    assert_eq!(b.query("*OPC?"), "1", "others do not wait");
    let (bytes, pieces) = a.pieces();
    assert_eq!((bytes.len(), pieces.len()), (400_008, 25_001));
}

#[test]
fn a_device_clear_ends_an_answer() {
    let gateway = Running::start();
    let mut a = gateway.open();
    a.size(1);
    a.send(7, b"FORM REAL;:SAMP:COUN 100000");
    a.send(7, b"READ?");
    std::thread::sleep(Duration::from_millis(50));
    a.device_clear();
    assert_eq!(a.query("*OPC?"), "1", "nothing of the old answer is left");
}
