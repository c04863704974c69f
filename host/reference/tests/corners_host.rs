//! Corners of refusals, instrument answers, clear and remote flags; the number in a name only orders them.

mod common;

use common::*;
use reference::server::RemoteLocal;
use reference::Refusal;

#[test]
fn item_36_refusals_in_order_and_without_effect() {
    let (mut bench, [a]) = Bench::with();
    bench.clock(100);
    let mut short = vec![5; 2047];
    bench.unchanged(|bench| {
        let server = &mut bench.server;
        assert_eq!(server.open(64), Err(Refusal::Connection));
        assert_eq!(server.open(u32::MAX), Err(Refusal::Connection));
        assert_eq!(server.open(0), Err(Refusal::AlreadyOpen));
        assert_eq!(server.cut(77, &mut short), Err(Refusal::ShortBuffer));
        assert_eq!(
            server.clock(u64::MAX, &mut short),
            Err(Refusal::ShortBuffer)
        );
        assert_eq!(
            server.answer(9, &[0; 2000], true, b"", &mut short),
            Err(Refusal::ShortBuffer)
        );
        assert_eq!(bench.try_cut(64), Err(Refusal::Connection));
        assert_eq!(bench.try_cut(63), Err(Refusal::Connection));
        assert_eq!(bench.try_clock(u64::MAX), Err(Refusal::ClockTooHigh));
        assert_eq!(bench.try_clock((1 << 62) + 1), Err(Refusal::ClockTooHigh));
        assert_eq!(bench.try_clock(99), Err(Refusal::ClockBackwards));
        assert_eq!(bench.answer(9, &[0; 2000], true), Err(Refusal::NoSession));
        assert_eq!(
            bench.answer(1, &[0; 2000], true),
            Err(Refusal::NothingAsked)
        );
    });
    assert!(short.iter().all(|byte| *byte == 5));
    bench.ask(a);
    assert_eq!(
        bench.answer(1, &[0; 1025], true),
        Err(Refusal::AnswerTooLong)
    );
    assert_eq!(bench.clock(1 << 62), []);
}

#[test]
fn item_37_refused_values_can_be_said() {
    let (mut bench, [_a]) = Bench::with();
    for session in [0, 2, 65_535, 65_537, u32::MAX] {
        assert_eq!(bench.answer(session, b"", true), Err(Refusal::NoSession));
    }
    let numbers = [
        Refusal::Connection as u8,
        Refusal::ShortBuffer as u8,
        Refusal::NoSession as u8,
    ];
    assert_eq!(numbers, [1, 7, 8]);
}

#[test]
fn item_38_a_half_open_or_clearing_session_is_live_and_has_asked_nothing() {
    let mut bench = Bench::new();
    let half = bench.half_open(7);
    assert_eq!(
        bench.answer(half.into(), b"", true),
        Err(Refusal::NothingAsked)
    );
    let a = bench.session_on(0, 1);
    bench.ask(a);
    bench.send(a.asynchronous, CLEAR, 0, b"");
    assert_eq!(
        bench.answer(a.number.into(), b"", true),
        Err(Refusal::NothingAsked)
    );
}

#[test]
fn item_39_the_clients_size_bounds_answers_alone() {
    let (mut bench, [a]) = Bench::with();
    let reply = Sent {
        payload: 1024u64.to_be_bytes().to_vec(),
        ..sent(a.asynchronous, 16, 0, 0)
    };
    for (size, fits, fails) in [
        (0, 0, 1),
        (5, 5, 6),
        (u64::MAX, 1024, 1025),
        (1025, 1024, 1025),
    ] {
        let seen = bench.send(a.asynchronous, 15, 0, &size.to_be_bytes());
        assert_eq!(seen, acted(a, 24, std::slice::from_ref(&reply)));
        bench.send(a.asynchronous, CLEAR, 0, b"");
        bench.send(a.sync, CLEARED, 0, b"");
        bench.ask(a);
        assert_eq!(
            bench.answer(1, &vec![1; fails], true),
            Err(Refusal::AnswerTooLong)
        );
        let answer = bench.answer(1, &vec![1; fits], true).expect("fits");
        assert_eq!(answer[0].payload.len(), fits);
    }
    assert_eq!(bench.send(a.sync, DATA, 1, &[0; 1024]), acted(a, 1040, &[]));
}

#[test]
fn item_40_only_value_16_of_the_status_byte_is_replaced() {
    let (mut bench, [a]) = Bench::with();
    for (status, response) in [(0xff, 0xef), (0x10, 0), (0, 0), (0x41, 0x41)] {
        bench.server.status(status);
        assert_eq!(bench.status_of(a, 0), response);
    }
    bench.clock(10);
    bench.unchanged(|bench| assert_eq!(bench.try_clock(10), Ok(vec![])));
}

#[test]
fn item_41_what_is_asked() {
    let (mut bench, [a]) = Bench::with();
    bench.send(a.sync, DATA, 0, b"");
    assert_eq!(
        bench.answer(1, b"", true),
        Err(Refusal::NothingAsked),
        "Data asks nothing"
    );
    // Round the end of the numbers too.
    for _ in 0..200 {
        let number = bench.ask(a);
        assert_eq!(
            bench.answer(1, b"", false),
            Ok(vec![sent(a.sync, DATA, 0, number)])
        );
        assert_eq!(
            bench.answer(1, b"", true),
            Ok(vec![sent(a.sync, DATA_END, 0, number)])
        );
        assert_eq!(bench.answer(1, b"", true), Err(Refusal::NothingAsked));
    }
    let first = bench.ask(a);
    bench.send(a.sync, TRIGGER, 0, b"");
    assert_eq!(
        bench.answer(1, b"", true),
        Ok(vec![sent(a.sync, DATA_END, 0, first + 2)])
    );
}

#[test]
fn item_42_message_available() {
    let (mut bench, [a, b]) = Bench::with();
    bench.ask(a);
    assert_eq!(bench.status_of(a, 0), 0);
    bench.answer(1, b"", false).expect("asked");
    assert_eq!(bench.status_of(a, 0), 16);
    assert_eq!(bench.status_of(b, 0), 0, "each session has its own");
    assert_eq!(bench.status_of(a, 1), 0, "off before the response");
    bench.answer(1, b"", false).expect("asked");
    assert_eq!(bench.status_of(a, 0), 16, "on at every answer");
    bench.send(a.asynchronous, CLEAR, 0, b"");
    assert_eq!(bench.status_of(a, 0), 0);
}

#[test]
fn item_43_the_querys_number_is_not_looked_at() {
    let (mut bench, [a]) = Bench::with();
    bench.ask(a);
    bench.answer(1, b"", true).expect("asked");
    for number in [0, 2, 0xffff_fefe, 77] {
        let seen = bench.deliver(a.asynchronous, &message(QUERY, 0, number, b""));
        assert_eq!(seen.frames, [sent(a.asynchronous, 22, 16, 0)]);
    }
}

#[test]
fn item_44_answers_need_no_access() {
    let (mut bench, [a, b]) = Bench::with();
    let number = bench.ask(a);
    bench.lock(b, b"", 0);
    assert_eq!(
        bench.answer(1, b"", true),
        Ok(vec![sent(a.sync, DATA_END, 0, number)])
    );
}

#[test]
fn item_59_device_clear() {
    let (mut bench, [a, b]) = Bench::with();
    bench.lock(b, b"k", 0);
    bench.lock(a, b"other", 50);
    bench.send(a.asynchronous, 15, 0, &3u64.to_be_bytes());
    let frames = [timed_out(a), sent(a.asynchronous, 23, 0, 0)];
    assert_eq!(
        bench.send(a.asynchronous, CLEAR, 0, b""),
        acted(a, 16, &frames)
    );
    assert_eq!(bench.clock(1000), [], "the request is gone");
    bench.send(b.asynchronous, CLEAR, 0, b"");
    assert_eq!(bench.info(a), (0, 1), "locks stay");
    bench.release(b);
    bench.send(a.sync, CLEARED, 0, b"");
    bench.ask(a);
    assert_eq!(
        bench.answer(1, b"four", true),
        Err(Refusal::AnswerTooLong),
        "the size stays"
    );
}

#[test]
fn item_60_of_the_feature_bits_bit_0_alone_is_granted() {
    let (mut bench, [a]) = Bench::with();
    let seen = bench.send(a.asynchronous, CLEAR, 1, b"");
    assert_eq!(seen.frames, [sent(a.asynchronous, 23, 0, 0)]);
    let seen = bench.send(a.sync, CLEARED, 0xfe, b"");
    assert_eq!(seen.frames, [sent(a.sync, 9, 0, 0)]);
}

#[test]
fn item_61_remote_codes() {
    let (mut bench, [a, b]) = Bench::with();
    bench.lock(b, b"", 0);
    let flags = |enable, lockout, remote| RemoteLocal {
        enable,
        lockout,
        remote,
    };
    let (off, on) = (false, true);
    let steps = [
        (1, flags(on, off, off)),
        (4, flags(on, on, off)),
        (3, flags(on, on, on)),
        (6, flags(on, on, off)),
        (0, flags(off, off, off)),
        (6, flags(off, off, off)),
        (3, flags(on, off, on)),
        (1, flags(on, off, on)),
        (2, flags(off, off, off)),
        (5, flags(on, on, on)),
    ];
    for (code, expected) in steps {
        let seen = bench.send(a.asynchronous, 10, code, b"");
        assert_eq!(seen, acted(a, 16, &[sent(a.asynchronous, 11, 0, 0)]));
        assert_eq!(bench.server.remote_local(), expected, "code {code}");
    }
}

#[test]
fn item_62_only_type_10_moves_the_remote_flags() {
    let (mut bench, [a]) = Bench::with();
    bench.send(a.asynchronous, 10, 1, b"");
    let enabled = bench.server.remote_local();
    bench.ask(a);
    bench.status_of(a, 0);
    bench.lock(a, b"", 0);
    bench.send(a.asynchronous, CLEAR, 0, b"");
    assert_eq!(bench.server.remote_local(), enabled);
}

#[test]
fn item_64_the_buffer_holds_frames_and_then_what_it_held() {
    let (mut bench, [a, b]) = Bench::with();
    bench.lock(a, b"", 0);
    bench.lock(b, b"", 9);
    bench.ask(a);
    let old: Vec<u8> = (0..3000).map(|i| (i % 251) as u8).collect();
    let mut out = old.clone();
    let answered = bench.server.answer(1, b"xyz", true, b"", &mut out);
    assert_eq!(answered.map(|answered| answered.output), Ok(20));
    assert_eq!((&out[..3], &out[17..20]), (&b"\0HS"[..], &b"xyz"[..]));
    assert_eq!(out[20..], old[20..]);
    out.clone_from(&old);
    assert_eq!(
        bench.server.answer(1, b"xyz", true, b"", &mut out),
        Err(Refusal::NothingAsked)
    );
    assert_eq!(out, old, "refused");
    assert_eq!(bench.server.clock(8, &mut out), Ok(0));
    assert_eq!(out, old, "nothing to send");
    assert_eq!(bench.server.clock(9, &mut out), Ok(17));
    assert_eq!((&out[..4], out[4]), (&b"\x03HS\x05"[..], 0));
    assert_eq!(out[17..], old[17..]);
}

#[test]
fn who_waits_and_until_when() {
    let (mut bench, [a, b, c]) = Bench::with();
    bench.clock(100);
    assert_eq!(bench.server.deadline(), (0, 0));
    bench.lock(a, b"", 0);
    bench.lock(b, b"", 50);
    bench.lock(c, b"", 20);
    assert_eq!(bench.server.deadline(), (2, 120), "not the first to come");
    assert_eq!(bench.clock(119), []);
    assert_eq!(bench.clock(120), [timed_out(c)]);
    assert_eq!(bench.server.deadline(), (1, 150));
    bench.cut(b.sync);
    assert_eq!(bench.server.deadline(), (0, 0));
}

#[test]
fn how_long_an_answer_may_be() {
    let (mut bench, [a]) = Bench::with();
    assert_eq!(bench.server.client_size(1), Ok(1024));
    bench.send(a.asynchronous, 15, 0, &u64::MAX.to_be_bytes());
    assert_eq!(bench.server.client_size(1), Ok(u64::MAX));
    for session in [0, 2, 65_537, u32::MAX] {
        let told = bench.server.client_size(session);
        assert_eq!(told, Err(Refusal::NoSession), "{session}");
    }
    bench.half_open(7);
    assert_eq!(bench.server.client_size(2), Ok(1024));
    bench.cut(a.sync);
    assert_eq!(bench.server.client_size(1), Err(Refusal::NoSession));
}
