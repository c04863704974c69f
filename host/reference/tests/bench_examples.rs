//! The bench examples of 01, byte for byte.

mod common;

use common::*;
use reference::{Outcome, Server};

/// Sixteen bytes from eight given ones and eight zeros.
fn with_zeros(first: [u8; 8]) -> Vec<u8> {
    [first, [0; 8]].concat()
}

fn raw(server: &mut Server, connection: u32, bytes: &[u8]) -> (Outcome, Vec<u8>) {
    let mut out = vec![0xee; 2048];
    let delivery = server.deliver(connection, bytes, &mut out).expect("open");
    assert!(out[delivery.output..].iter().all(|byte| *byte == 0xee));
    out.truncate(delivery.output);
    (delivery.outcome, out)
}

#[test]
fn opening_both_channels() {
    let mut server = Server::new(0x4141);
    server.open(0).expect("not open yet");
    let first = with_zeros([0x48, 0x53, 0, 0, 1, 0, 0x41, 0x41]);
    let mut whole = vec![0];
    whole.extend(with_zeros([0x48, 0x53, 1, 0, 1, 0, 0, 1]));
    assert_eq!(raw(&mut server, 0, &first), (Outcome::ActedOn, whole));

    server.open(1).expect("not open yet");
    let second = with_zeros([0x48, 0x53, 0x11, 0, 0, 0, 0, 1]);
    let mut whole = vec![1];
    whole.extend(with_zeros([0x48, 0x53, 0x12, 0, 0, 0, 0x41, 0x41]));
    assert_eq!(raw(&mut server, 1, &second), (Outcome::ActedOn, whole));
}

#[test]
fn fifteen_header_bytes_are_too_few() {
    let (mut bench, [a]) = Bench::with();
    let message = message(DATA_END, 0, 0, b"");
    assert_eq!(bench.deliver(a.sync, &message[..15]), more_needed());
}

#[test]
fn wrong_prologue() {
    let (mut bench, [a]) = Bench::with();
    let mut bytes = message(DATA_END, 0, 0, b"");
    bytes[1] = b'T';
    assert_eq!(bench.deliver(a.sync, &bytes), fatal_both(a, 1));
}

#[test]
fn length_1024_is_accepted_and_1025_is_error_4() {
    let (mut bench, [a]) = Bench::with();
    let longest = message(DATA_END, 0, 0xffff_ff00, &[7; 1024]);
    assert_eq!(bench.deliver(a.sync, &longest), acted(a, 1040, &[]));
    let longer = message(DATA_END, 0, 0, &[7; 1025]);
    assert_eq!(bench.deliver(a.sync, &longer), error(a.sync, 4, 16));
}

#[test]
fn a_exclusive_b_refused_and_held() {
    let (mut bench, [a, b]) = Bench::with();
    assert_eq!(bench.lock(a, b"", 0), Some(1));
    assert_eq!(bench.lock(b, b"", 0), Some(0));
    assert_eq!(bench.send(b.sync, DATA, 0, b"x"), held());
}

#[test]
fn shared_holders_and_releases() {
    let (mut bench, [a, b, c]) = Bench::with();
    assert_eq!(bench.lock(a, b"cal", 0), Some(1));
    assert_eq!(bench.lock(b, b"cal", 0), Some(1));
    assert_eq!(bench.lock(c, b"Cal", 0), Some(0));
    assert_eq!(bench.send(b.sync, DATA, 0, b"x"), acted(b, 17, &[]));
    assert_eq!(bench.lock(a, b"", 0), Some(1));
    assert_eq!(bench.send(b.sync, DATA, 0, b"x"), held());
    for code in [1, 2, 3] {
        assert_eq!(bench.release(a), (code, vec![]));
    }
}

#[test]
fn waiting_500_from_clock_1000() {
    let (mut bench, [a, b]) = Bench::with();
    assert_eq!(bench.clock(1000), []);
    assert_eq!(bench.lock(a, b"", 0), Some(1));
    assert_eq!(bench.lock(b, b"", 500), None);
    assert_eq!(bench.clock(1499), []);
    assert_eq!(bench.clock(1500), [timed_out(b)]);
}

#[test]
fn status_41_with_an_answer_sent_is_51() {
    let (mut bench, [a]) = Bench::with();
    bench.server.status(0x41);
    assert_eq!(bench.status_of(a, 0), 0x41);
    bench.ask(a);
    bench.answer(1, b"1.0", true).expect("asked");
    assert_eq!(bench.status_of(a, 0), 0x51);
}

#[test]
fn type_39_is_error_1_and_type_128_error_3() {
    let (mut bench, [a]) = Bench::with();
    for connection in [a.sync, a.asynchronous] {
        assert_eq!(bench.send(connection, 39, 0, b""), error(connection, 1, 16));
        assert_eq!(
            bench.send(connection, 128, 0, b""),
            error(connection, 3, 16)
        );
    }
}
