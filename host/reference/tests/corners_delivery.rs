//! Corners of a delivery; the number in a name only orders them.

mod common;

use common::*;
use reference::compose::header;
use reference::wire::{class, Channel, Class};
use reference::{Outcome, Refusal, Server};

fn skipped(taken: usize) -> Seen {
    seen(Outcome::Skipped, 0, taken, &[])
}

fn closed(client: Client) -> Seen {
    seen(Outcome::Closed, client.number, 0, &[])
}

/// Puts the client's synchronous channel into a device clear.
fn clear(bench: &mut Bench, client: Client) {
    let expected = [sent(client.asynchronous, 23, 0, 0)];
    let seen = bench.send(client.asynchronous, CLEAR, 0, b"");
    assert_eq!(seen, acted(client, 16, &expected));
}

#[test]
fn item_02_common_prefix_of_all_deliveries() {
    let (mut bench, [a]) = Bench::with();
    let good = message(DATA, 0, 0, b"");
    let mut short = vec![0; 2047];
    assert_eq!(
        bench.server.deliver(0, &good, &mut short),
        Err(Refusal::ShortBuffer)
    );
    assert_eq!(
        bench.server.deliver(99, &good, &mut short),
        Err(Refusal::ShortBuffer)
    );
    assert_eq!(bench.try_deliver(64, &good), Err(Refusal::Connection));
    assert_eq!(bench.try_deliver(63, &good), Err(Refusal::Connection));
    assert_eq!(bench.deliver(a.sync, b""), more_needed());
    assert_eq!(bench.deliver(a.sync, &[0; 15]), more_needed());
    assert_eq!(bench.deliver(a.sync, &[0; 16]), fatal_both(a, 1));
}

#[test]
fn item_02_bytes_after_the_remainder_are_not_read_in_the_same_call() {
    let (mut bench, [a]) = Bench::with();
    bench.deliver(a.sync, &header(DATA, 0, 0, 1025));
    let rest = [vec![0; 1025], message(DATA, 0, FIRST, b"")].concat();
    assert_eq!(bench.deliver(a.sync, &rest), skipped(1025));
    assert_eq!(bench.deliver(a.sync, &rest[1025..]), acted(a, 16, &[]));
}

#[test]
fn item_03_connection_without_a_role() {
    let mut bench = Bench::new();
    let cases: [(Vec<u8>, Seen); 7] = [
        (header(6, 0, 0, 0), fatal(9, 3)),
        (header(0, 0, 0, 1025), fatal(9, 3)),
        (header(17, 0, 1, 1025), fatal(9, 3)),
        (header(0, 0, 0, 1024), more_needed()),
        (message(17, 0, 1, b"x"), fatal(9, 3)),
        (message(0, 0, 0, b"hislip1"), fatal(9, 3)),
        (message(17, 0, 1, b""), fatal(9, 3)),
    ];
    for (bytes, expected) in cases {
        bench.open(9);
        assert_eq!(bench.deliver(9, &bytes), expected);
        bench.try_cut(9).ok();
    }
}

#[test]
fn item_04_half_open_session_is_closed_by_any_message() {
    for kind in [0, 2, 3, 6, 8, 17, 128, 255] {
        for length in [0, 5, 1025, u64::MAX] {
            let mut bench = Bench::new();
            let number = bench.half_open(4);
            let seen = bench.deliver(4, &header(kind, 0, 0, length));
            let only = [sent(4, FATAL, 2, 0)];
            assert_eq!(seen, common::seen(Outcome::Closed, number, 0, &only));
        }
    }
}

#[test]
fn item_05_order_of_checks_on_an_established_session() {
    let (mut bench, [a, b]) = Bench::with();
    bench.lock(a, b"", 0);
    assert_eq!(bench.deliver(b.sync, &header(6, 9, 0, 9)), more_needed());
    assert_eq!(bench.send(b.sync, 200, 9, b"x"), error(b.sync, 3, 17));
    assert_eq!(bench.send(b.sync, 6, 9, b"x"), held());
    assert_eq!(bench.send(a.sync, 6, 9, b"x"), error(a.sync, 2, 17));
    assert_eq!(bench.send(a.sync, 12, 1, b"x"), error(a.sync, 0, 17));
    assert_eq!(bench.send(a.sync, 8, 0, b""), error(a.sync, 0, 16));
    assert_eq!(bench.send(a.sync, 0, 0, b""), fatal_both(a, 3));
    assert_eq!(bench.send(b.asynchronous, 17, 0, b""), fatal_both(b, 3));
}

#[test]
fn item_06_only_closed_and_acted_on_report_a_session() {
    let (mut bench, [a]) = Bench::with();
    bench.open(9);
    assert_eq!(bench.send(9, 99, 0, b"").session, 0);
    assert_eq!(bench.send(a.sync, 99, 0, b"").session, 0);
    assert_eq!(bench.send(a.sync, 3, 0, b"").session, 0);
    assert_eq!(bench.send(a.sync, 6, 0, b"").session, a.number);
    assert_eq!(bench.send(a.sync, 2, 0, b"").session, a.number);
}

#[test]
fn item_07_nothing_taken_exactly_when_more_needed_held_or_closed() {
    let (mut bench, [a, b]) = Bench::with();
    bench.lock(a, b"", 0);
    assert_eq!(bench.send(b.sync, 6, 0, b"").taken, 0);
    assert_eq!(bench.deliver(b.sync, &header(6, 0, 0, 2000)).taken, 16);
    assert_eq!(bench.deliver(b.sync, &[0]).taken, 1);
    assert_eq!(bench.deliver(b.sync, &[]).taken, 0);
    assert_eq!(bench.send(a.asynchronous, 2, 0, b"").taken, 0);
}

#[test]
fn item_08_no_bytes_with_a_remainder_is_more_needed() {
    let (mut bench, [a]) = Bench::with();
    bench.deliver(a.sync, &header(6, 0, 0, 2000));
    let none = bench.unchanged(|bench| bench.deliver(a.sync, &[]));
    assert_eq!(none, more_needed());
}

#[test]
fn item_09_a_remainder_outlives_a_clear_and_is_dropped_by_closing() {
    let (mut bench, [a]) = Bench::with();
    bench.deliver(a.sync, &header(6, 0, 0, u64::MAX));
    clear(&mut bench, a);
    assert_eq!(bench.deliver(a.sync, &message(8, 0, 0, b"")), skipped(16));
    bench.cut(a.sync);
    bench.open(a.sync);
    assert_eq!(bench.deliver(a.sync, &[1; 16]), fatal(a.sync, 1));
}

#[test]
fn item_10_too_large_takes_the_header_alone() {
    let (mut bench, [a]) = Bench::with();
    let whole = message(6, 0, 0, &[0; 1100]);
    assert_eq!(bench.deliver(a.sync, &whole), error(a.sync, 4, 16));
    assert_eq!(bench.deliver(a.sync, &whole[16..]), skipped(1100));
    assert_eq!(bench.deliver(a.sync, &whole[..16]), error(a.sync, 4, 16));
}

#[test]
fn item_11_too_large_comes_before_all_later_checks() {
    for kind in [0, 2, 3, 8, 17, 39, 128] {
        let (mut bench, [a, b]) = Bench::with();
        bench.lock(a, b"", 0);
        let large = header(kind, 9, 0, 1025);
        assert_eq!(bench.deliver(b.sync, &large), error(b.sync, 4, 16));
        assert_eq!(
            bench.deliver(b.asynchronous, &large),
            error(b.asynchronous, 4, 16)
        );
    }
    let (mut bench, [a]) = Bench::with();
    clear(&mut bench, a);
    assert_eq!(
        bench.deliver(a.sync, &header(8, 0, 0, 1025)),
        error(a.sync, 4, 16)
    );
    assert_eq!(bench.deliver(a.sync, &[0; 1025]), skipped(1025));
    assert_eq!(
        bench.send(a.sync, 6, 0, b""),
        ignored(16),
        "still in the clear"
    );
}

#[test]
fn item_12_a_clients_errors_do_not_open_a_session() {
    let mut bench = Bench::new();
    for kind in [2, 3] {
        bench.open(9);
        assert_eq!(bench.send(9, kind, 0, b""), fatal(9, 3));
        let number = bench.half_open(9);
        let only = [sent(9, FATAL, 2, 0)];
        assert_eq!(
            bench.send(9, kind, 0, b""),
            seen(Outcome::Closed, number, 0, &only)
        );
    }
}

#[test]
fn item_13_a_clients_fatal_error_must_be_whole() {
    let (mut bench, [a]) = Bench::with();
    let bytes = message(2, 1, 0, b"bye");
    assert_eq!(bench.deliver(a.sync, &bytes[..18]), more_needed());
    assert_eq!(bench.deliver(a.sync, &bytes), closed(a));
}

#[test]
fn item_14_a_clear_ignores_the_synchronous_channel_alone() {
    let (mut bench, [a, b]) = Bench::with();
    bench.lock(a, b"", 0);
    clear(&mut bench, b);
    assert_eq!(bench.status_of(b, 0), 0);
    assert_eq!(bench.lock(b, b"", 10), None);
    let again = [timed_out(b), sent(b.asynchronous, 23, 0, 0)];
    assert_eq!(
        bench.send(b.asynchronous, CLEAR, 0, b""),
        acted(b, 16, &again)
    );
    assert_eq!(bench.send(b.sync, 6, 0, b""), ignored(16));
}

#[test]
fn item_15_in_a_clear_fatal_errors_and_bad_headers_close() {
    let (mut bench, [a, b]) = Bench::with();
    clear(&mut bench, a);
    clear(&mut bench, b);
    assert_eq!(bench.send(a.sync, 3, 0, b"oops"), ignored(20));
    assert_eq!(bench.send(a.sync, 2, 0, b""), closed(a));
    assert_eq!(bench.deliver(b.sync, &[0; 16]), fatal_both(b, 1));
}

#[test]
fn item_16_in_a_clear_no_type_is_answered() {
    let (mut bench, [a]) = Bench::with();
    clear(&mut bench, a);
    for kind in [0, 4, 17, 39, 128, 255] {
        assert_eq!(bench.send(a.sync, kind, 9, b"xy"), ignored(18));
    }
}

#[test]
fn item_17_in_a_clear_nothing_is_held() {
    let (mut bench, [a, b]) = Bench::with();
    bench.lock(a, b"", 0);
    assert_eq!(bench.send(b.sync, 6, 0, b"old"), held());
    clear(&mut bench, b);
    assert_eq!(bench.send(b.sync, 6, 0, b"old"), ignored(19));
}

#[test]
fn item_18_initialize_on_the_other_channel_is_unrecognised() {
    let (mut bench, [a]) = Bench::with();
    assert_eq!(bench.send(a.sync, 17, 0, b""), error(a.sync, 1, 16));
    assert_eq!(
        bench.send(a.asynchronous, 0, 0, b""),
        error(a.asynchronous, 1, 16)
    );
    assert_eq!(bench.send(a.sync, 6, 0, b"x"), acted(a, 17, &[]));
}

#[test]
fn item_19_unknown_types_are_answered_though_another_holds_the_lock() {
    let (mut bench, [a, b]) = Bench::with();
    bench.lock(a, b"", 0);
    assert_eq!(bench.send(b.sync, 128, 200, b"x"), error(b.sync, 3, 17));
    assert_eq!(bench.send(b.sync, 127, 200, b"x"), error(b.sync, 1, 17));
}

#[test]
fn item_20_held_comes_before_code_and_payload() {
    let (mut bench, [a, b]) = Bench::with();
    bench.lock(a, b"", 0);
    assert_eq!(bench.send(b.sync, 6, 7, b""), held());
    assert_eq!(bench.send(b.sync, 12, 0, b"x"), held());
}

#[test]
fn item_21_only_data_and_triggers_are_held() {
    let (mut bench, [a, b]) = Bench::with();
    bench.lock(a, b"", 0);
    assert_eq!(bench.send(b.sync, 8, 0, b""), error(b.sync, 0, 16));
    assert_eq!(bench.send(b.sync, 3, 0, b""), ignored(16));
    for kind in [6, 7, 12] {
        assert_eq!(
            bench.unchanged(|bench| bench.send(b.sync, kind, 0, b"")),
            held()
        );
    }
    assert_eq!(bench.send(b.sync, 2, 0, b""), closed(b));
}

#[test]
fn item_22_allowed_codes() {
    let (mut bench, [a]) = Bench::with();
    let limits = [(6, 1), (7, 1), (12, 1), (21, 1), (4, 1), (10, 6)];
    for (kind, highest) in limits {
        let to = if kind == 6 || kind == 7 || kind == 12 {
            a.sync
        } else {
            a.asynchronous
        };
        for code in [highest + 1, 7, 128, 255] {
            assert_eq!(bench.send(to, kind, code, b""), error(to, 2, 16));
        }
        assert_eq!(bench.send(to, kind, highest, b"").outcome, Outcome::ActedOn);
    }
    for kind in [19, 24] {
        assert_eq!(
            bench.send(a.asynchronous, kind, 255, b"").outcome,
            Outcome::ActedOn
        );
    }
    let to = a.asynchronous;
    assert_eq!(bench.send(to, 15, 255, &[0; 8]).outcome, Outcome::ActedOn);
    assert_eq!(
        bench.send(to, 10, 7, b"x"),
        error(to, 2, 17),
        "code before payload"
    );
    assert_eq!(
        bench.send(to, 4, 2, b""),
        error(to, 2, 16),
        "no release of shared alone"
    );
    assert_eq!(bench.send(a.sync, 8, 255, b"").outcome, Outcome::ActedOn);
}

#[test]
fn item_23_payload_where_none_belongs() {
    let (mut bench, [a]) = Bench::with();
    bench.lock(a, b"", 0);
    let to = a.asynchronous;
    for kind in [10, 19, 21, 24, 4] {
        assert_eq!(bench.send(to, kind, 0, b"x"), error(to, 0, 17));
    }
    assert_eq!(bench.send(a.sync, 12, 0, b"x"), error(a.sync, 0, 17));
    for length in [0, 7, 9] {
        assert_eq!(
            bench.send(to, 15, 0, &[0; 9][..length]),
            error(to, 0, 16 + length)
        );
    }
    assert_eq!(bench.info(a), (1, 1), "the release did not act");
}

#[test]
fn item_24_async_initialize_with_payload_leaves_the_session_alone() {
    let mut bench = Bench::new();
    let number = bench.half_open(0);
    bench.open(1);
    assert_eq!(
        bench.deliver(1, &message(17, 0, number.into(), b"x")),
        fatal(1, 3)
    );
    bench.open(1);
    assert_eq!(
        bench
            .deliver(1, &message(17, 0, number.into(), b""))
            .session,
        number
    );
}

#[test]
fn item_25_clear_complete_with_payload_does_not_end_the_clear() {
    let (mut bench, [a]) = Bench::with();
    clear(&mut bench, a);
    assert_eq!(bench.send(a.sync, 8, 0, b"x"), error(a.sync, 0, 17));
    assert_eq!(bench.send(a.sync, 6, 0, b""), ignored(16));
    assert_eq!(
        bench.send(a.sync, 8, 0, b""),
        acted(a, 16, &[sent(a.sync, 9, 0, 0)])
    );
    assert_eq!(bench.send(a.sync, 8, 0, b"x"), error(a.sync, 0, 17));
}

#[test]
fn item_26_an_error_takes_the_message_whole() {
    let (mut bench, [a]) = Bench::with();
    assert_eq!(
        bench.send(a.sync, 99, 0, &[1; 1024]),
        error(a.sync, 1, 1040)
    );
    assert_eq!(
        bench.send(a.asynchronous, 24, 0, &[1; 300]),
        error(a.asynchronous, 0, 316)
    );
}

#[test]
fn item_27_fatal_error_goes_to_the_synchronous_channel_first() {
    let (mut bench, [a, b]) = Bench::with();
    bench.lock(a, b"", 0);
    bench.lock(b, b"", 100);
    let frames = [
        sent(a.sync, FATAL, 1, 0),
        sent(a.asynchronous, FATAL, 1, 0),
        granted(b),
    ];
    let expected = seen(Outcome::Closed, a.number, 0, &frames);
    assert_eq!(bench.deliver(a.asynchronous, &[0; 16]), expected);
}

#[test]
fn item_28_the_named_session_of_a_failed_join_is_untouched() {
    let mut bench = Bench::new();
    let established = bench.session_on(0, 1);
    let half = bench.half_open(2);
    let wrong = [
        0,
        7,
        u32::from(established.number),
        0x1_0000 + u32::from(half),
        u32::MAX,
    ];
    for parameter in wrong {
        bench.open(3);
        assert_eq!(
            bench.deliver(3, &message(17, 0, parameter, b"")),
            fatal(3, 3)
        );
    }
    bench.open(3);
    assert_eq!(
        bench.deliver(3, &message(17, 0, half.into(), b"")).session,
        half
    );
}

#[test]
fn item_29_sub_address_and_version() {
    let mut bench = Bench::new();
    for address in [&b"hislip1"[..], b"HISLIP0", b"hislip0\0", b"hislip", b"\0"] {
        bench.open(0);
        assert_eq!(
            bench.deliver(0, &message(0, 0, 0x0100_0000, address)),
            fatal(0, 3)
        );
    }
    let versions: [(u32, u32); 4] = [
        (0x0000, 0),
        (0x00ff, 0xff),
        (0x0100, 0x100),
        (0xffff, 0x100),
    ];
    for (number, (asked, given)) in (1..).zip(versions) {
        bench.open(0);
        let seen = bench.deliver(0, &message(0, 77, asked << 16 | 0xabcd, b"hislip0"));
        assert_eq!(seen.frames, [sent(0, 1, 0, given << 16 | number)]);
        bench.cut(0);
    }
    for connection in 0..32 {
        bench.half_open(connection);
    }
    bench.open(40);
    assert_eq!(bench.send(40, 0, 0, b"bad"), fatal(40, 3));
    bench.open(40);
    assert_eq!(bench.send(40, 0, 0, b""), fatal(40, 4));
}

#[test]
fn item_30_session_numbers_go_round_and_pass_over_live_ones() {
    let mut bench = Bench::new();
    let stays = bench.session_on(62, 63);
    let half = bench.half_open(29);
    assert_eq!((stays.number, half), (1, 2));
    for expected in 3..=65_535 {
        assert_eq!(bench.half_open(0), expected);
        bench.cut(0);
    }
    assert_eq!(bench.half_open(0), 3, "1 and 2 are live");
    bench.open(1);
    assert_eq!(bench.send(1, 0, 0, b"bad"), fatal(1, 3));
    assert_eq!(bench.half_open(1), 4, "a failed opening issues nothing");
}

#[test]
fn item_31_closing_frees_everything_of_the_session() {
    let (mut bench, [a, b]) = Bench::with();
    bench.clock(5);
    bench.server.status(0x41);
    bench.send(a.asynchronous, 10, 5, b"");
    bench.lock(a, b"", 0);
    bench.lock(b, b"", 100);
    assert_eq!(bench.cut(a.asynchronous), [granted(b)], "no FatalError");
    assert_eq!(
        bench.try_deliver(a.sync.into(), b""),
        Err(Refusal::Connection)
    );
    assert_eq!(bench.try_cut(a.sync.into()), Err(Refusal::Connection));
    assert!(bench.server.remote_local().lockout);
    let c = bench.session_on(a.sync, a.asynchronous);
    assert_eq!(c.number, 3);
    assert_eq!(bench.status_of(c, 0), 0x41);
    assert_eq!(bench.try_clock(4), Err(Refusal::ClockBackwards));
}

#[test]
fn item_31_cutting_a_half_open_session_frees_its_place() {
    let mut bench = Bench::new();
    for connection in 0..32 {
        bench.half_open(connection);
    }
    bench.open(40);
    assert_eq!(bench.cut(40), []);
    assert_eq!(bench.cut(3), []);
    assert_eq!(bench.half_open(3), 33);
}

#[test]
fn item_32_which_messages_carry_rmt_delivered() {
    let (mut bench, [a, b]) = Bench::with();
    let mut available_after = |kind: u8, code: u8, payload: &[u8]| {
        bench.ask(a);
        bench.answer(1, b"", false).expect("asked");
        let to = if matches!(kind, 6 | 7 | 12) {
            a.sync
        } else {
            a.asynchronous
        };
        bench.send(to, kind, code, payload);
        bench.status_of(a, 0) == 16
    };
    for kind in [6, 7, 12, 21] {
        assert!(available_after(kind, 0, b""));
        assert!(!available_after(kind, 1, b""), "type {kind}");
    }
    for kind in [4, 10, 24] {
        assert!(available_after(kind, 1, b""), "type {kind}");
    }
    assert!(available_after(12, 1, b"x"), "answered with Error 0");
    bench.deliver(a.sync, &header(6, 1, 0, 1025));
    assert_eq!(bench.status_of(a, 0), 16, "too large");
    bench.deliver(a.sync, &[0; 1025]);
    // The last message that acted: a Trigger with payload came after it.
    let last = bench.next(a).wrapping_sub(4);
    bench.release_after(a, last);
    bench.lock(b, b"", 0);
    assert_eq!(bench.send(a.sync, 6, 1, b""), held());
    assert_eq!(bench.status_of(a, 0), 16, "held");
}

#[test]
fn item_33_data_that_acts_is_passed_on_without_output() {
    let (mut bench, [a]) = Bench::with();
    for kind in [6, 7] {
        assert_eq!(bench.send(a.sync, kind, 0, b"VOLT?"), acted(a, 21, &[]));
    }
    assert_eq!(bench.send(a.sync, 12, 0, b""), acted(a, 16, &[]));
}

#[test]
fn item_34_the_clears_acknowledgements_and_their_channels() {
    let (mut bench, [a]) = Bench::with();
    clear(&mut bench, a);
    assert_eq!(
        bench.send(a.sync, 8, 0, b""),
        acted(a, 16, &[sent(a.sync, 9, 0, 0)])
    );
    let number = bench.ask(a);
    let answer = bench.answer(1, b"", true).expect("asked");
    assert_eq!(answer, [sent(a.sync, 7, 0, number)]);
}

#[test]
fn item_35_class_table() {
    let acted_on = |channel| {
        (0..=255)
            .filter(move |kind| class(channel, *kind) == Class::ActedOn)
            .collect::<Vec<u8>>()
    };
    assert_eq!(acted_on(Channel::Synchronous), [0, 2, 3, 6, 7, 8, 12]);
    assert_eq!(
        acted_on(Channel::Asynchronous),
        [2, 3, 4, 10, 15, 17, 19, 21, 24]
    );
    let mut counts = [0; 3];
    for channel in [Channel::Synchronous, Channel::Asynchronous] {
        for kind in 0..=255 {
            let class = class(channel, kind);
            counts[class as usize] += 1;
            assert_eq!(class == Class::Vendor, kind >= 128);
        }
    }
    assert_eq!(counts, [16, 256, 240]);
    // The table is the one the server goes by.
    for kind in 0..=255 {
        let (mut bench, [a]) = Bench::with();
        let answered = bench.send(a.asynchronous, kind, 0, b"");
        let expected = match class(Channel::Asynchronous, kind) {
            Class::Vendor => error(a.asynchronous, 3, 16),
            Class::Unrecognised => error(a.asynchronous, 1, 16),
            Class::ActedOn => continue,
        };
        assert_eq!(answered, expected);
    }
}

#[test]
fn item_35_fresh_server_is_of_its_vendor_alone() {
    assert_eq!(Server::new(0x4141), Server::new(0x4141));
    assert_ne!(Server::new(0x4141), Server::new(0x4142));
}
