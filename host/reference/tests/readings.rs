//! Q-11, sentence by sentence: readings under watch.

mod common;

use common::*;
use reference::compose::block;
use reference::readings::Record;
use reference::{Mode, Refusal, Single, Watch};

const SERVICE_REQUEST: u8 = 20;
const QUIET: f32 = f32::NAN;
/// The smallest numbers above zero.
const TINY: f32 = f32::from_bits(1);
const SECOND: f32 = f32::from_bits(2);

fn signalling() -> f32 {
    f32::from_bits(0x7f80_0001)
}

/// Sends one answer of these bytes, without END, and says what follows it.
fn after_answer(bench: &mut Bench, client: Client, payload: &[u8]) -> Vec<Sent> {
    let mut frames = bench
        .answer(client.number.into(), payload, false)
        .expect("asked");
    let answer = frames.remove(0);
    assert_eq!((answer.to, answer.kind), (client.sync, DATA));
    assert_eq!(answer.payload, payload);
    frames
}

fn sends(bench: &mut Bench, client: Client, readings: &[f32]) -> Vec<Sent> {
    after_answer(bench, client, &block(readings))
}

fn requests(client: Client, code: u8) -> [Sent; 1] {
    [sent(client.asynchronous, SERVICE_REQUEST, code, 0)]
}

/// A session that has asked.
fn asking() -> (Bench, Client) {
    let (mut bench, [a]) = Bench::with();
    bench.ask(a);
    (bench, a)
}

fn watched(watch: Watch) -> (Bench, Client) {
    let (mut bench, a) = asking();
    assert_eq!(bench.server.watch(a.number.into(), watch), Ok(()));
    (bench, a)
}

fn record(bench: &Bench, client: Client) -> Option<Record> {
    bench.server.readings(client.number.into()).expect("live")
}

fn recorded(last: f32, lowest: f32, highest: f32) -> Option<Record> {
    Some(Record {
        last: Single(last),
        lowest: Single(lowest),
        highest: Single(highest),
    })
}

#[test]
fn above_is_strictly_beyond_the_limit_or_not_a_number() {
    let (up, down) = (f32::next_up, f32::next_down);
    let infinity = f32::INFINITY;
    let above = [
        (
            1.5,
            vec![1.5, down(1.5), -infinity, 0.0, -1.5],
            vec![up(1.5), 2.0, infinity],
        ),
        (0.0, vec![0.0, -0.0, -TINY], vec![TINY, 1.0]),
        (-0.0, vec![0.0, -0.0, -TINY], vec![TINY]),
        (TINY, vec![TINY, 0.0], vec![SECOND]),
        (-TINY, vec![-TINY, -SECOND], vec![0.0, -0.0]),
        (-2.0, vec![-2.0, -3.0], vec![-1.5, 0.0]),
        (infinity, vec![infinity, f32::MAX], vec![]),
        (-infinity, vec![-infinity], vec![f32::MIN, 0.0]),
    ];
    for (limit, within, beyond) in above {
        check_trips(Watch::above(limit), &within, &beyond);
    }
}

#[test]
fn outside_is_below_the_low_limit_or_above_the_high_one() {
    let (up, down) = (f32::next_up, f32::next_down);
    let infinity = f32::INFINITY;
    let outside = [
        (
            (-1.0, 2.0),
            vec![-1.0, 2.0, 0.0],
            vec![down(-1.0), up(2.0), -infinity, infinity],
        ),
        ((0.0, -0.0), vec![0.0, -0.0], vec![TINY, -TINY]),
        ((3.0, 3.0), vec![3.0], vec![up(3.0), down(3.0), -3.0]),
        (
            (-infinity, infinity),
            vec![-infinity, infinity, 0.0],
            vec![],
        ),
        ((infinity, infinity), vec![infinity], vec![f32::MAX]),
        (
            (-SECOND, -TINY),
            vec![-TINY, -SECOND],
            vec![0.0, -0.0, 3.0 * -TINY],
        ),
    ];
    for ((low, high), within, beyond) in outside {
        check_trips(Watch::outside(low, high), &within, &beyond);
    }
}

fn check_trips(watch: Watch, within: &[f32], beyond: &[f32]) {
    let (mut bench, a) = watched(watch);
    for reading in within {
        assert_eq!(sends(&mut bench, a, &[*reading]), [], "{watch:?} {reading}");
    }
    let not_numbers = [QUIET, -QUIET, signalling(), -signalling()];
    for reading in beyond.iter().chain(&not_numbers) {
        let (mut bench, a) = watched(watch);
        let frames = sends(&mut bench, a, &[*reading]);
        assert_eq!(frames, requests(a, 0x50), "{watch:?} {reading}");
    }
}

#[test]
fn no_watch_and_a_watch_set_off_trip_nothing() {
    let (mut bench, a) = asking();
    assert_eq!(sends(&mut bench, a, &[QUIET, f32::INFINITY]), []);
    assert_eq!(bench.server.watch(1, Watch::above(0.0)), Ok(()));
    assert_eq!(bench.server.watch(1, Watch::Off), Ok(()));
    assert_eq!(sends(&mut bench, a, &[QUIET, f32::INFINITY]), []);
}

#[test]
fn the_code_is_the_status_byte_with_values_16_and_64_set() {
    for (status, code) in [
        (0, 0x50),
        (0x41, 0x51),
        (0xaf, 0xff),
        (0x50, 0x50),
        (0x10, 0x50),
    ] {
        let (mut bench, a) = watched(Watch::above(1.0));
        bench.server.status(status);
        assert_eq!(sends(&mut bench, a, &[2.0]), requests(a, code));
        assert_eq!(bench.status_of(a, 0) & !16, status & !16, "it stays");
    }
}

#[test]
fn only_the_first_trip_since_the_watch_was_set_requests_service() {
    let (mut bench, a) = watched(Watch::above(1.0));
    assert_eq!(sends(&mut bench, a, &[0.0, 2.0, 3.0]), requests(a, 0x50));
    assert_eq!(sends(&mut bench, a, &[2.0]), []);
    assert_eq!(bench.status_of(a, 0), 16, "a status query arms nothing");
    assert_eq!(sends(&mut bench, a, &[0.0]), []);
    assert_eq!(
        sends(&mut bench, a, &[QUIET]),
        [],
        "nor does a reading within"
    );
    let refused = bench.unchanged(|bench| bench.server.watch(1, Watch::above(QUIET)));
    assert_eq!(refused, Err(Refusal::BadLimits));
    assert_eq!(sends(&mut bench, a, &[2.0]), [], "nor a refused watch");
    for watch in [
        Watch::above(1.0),
        Watch::above(1.0),
        Watch::outside(3.0, 4.0),
    ] {
        assert_eq!(bench.server.watch(1, watch), Ok(()));
        assert_eq!(sends(&mut bench, a, &[2.0]), requests(a, 0x50), "set again");
        assert_eq!(sends(&mut bench, a, &[2.0]), []);
    }
}

#[test]
fn refused_as_8_then_10_and_then_nothing_changes() {
    let (mut bench, a) = watched(Watch::above(1.0));
    sends(&mut bench, a, &[7.0]);
    let infinity = f32::INFINITY;
    let not_numbers = [QUIET, -QUIET, signalling(), -signalling()];
    let mut bad = vec![
        Watch::outside(1.0, f32::next_down(1.0)),
        Watch::outside(infinity, -infinity),
        Watch::outside(TINY, 0.0),
        Watch::outside(-0.0, -TINY),
    ];
    for one in not_numbers {
        bad.extend([Watch::above(one), Watch::outside(one, 1.0)]);
        bad.extend([Watch::outside(1.0, one), Watch::outside(one, one)]);
    }
    bench.unchanged(|bench| {
        for watch in bad {
            let refused = |session| (session, bench.server.clone().watch(session, watch));
            for session in [0, 2, 65_535, 65_537, u32::MAX] {
                assert_eq!(refused(session), (session, Err(Refusal::NoSession)));
            }
            let told = bench.server.watch(a.number.into(), watch);
            assert_eq!(told, Err(Refusal::BadLimits), "{watch:?}");
        }
        let off = bench.server.watch(2, Watch::Off);
        assert_eq!(off, Err(Refusal::NoSession));
    });
    assert_eq!(
        (Refusal::NoSession as u8, Refusal::BadLimits as u8),
        (8, 10)
    );
}

#[test]
fn equal_limits_and_infinities_are_fine() {
    let (mut bench, _) = asking();
    let infinity = f32::INFINITY;
    for good in [
        Watch::above(infinity),
        Watch::above(-infinity),
        Watch::outside(-infinity, infinity),
        Watch::outside(infinity, infinity),
        Watch::outside(0.0, -0.0),
        Watch::outside(-0.0, 0.0),
        Watch::outside(1.0, 1.0),
    ] {
        assert_eq!(bench.server.watch(1, good), Ok(()), "{good:?}");
    }
}

#[test]
fn the_record_has_the_last_lowest_and_highest_numeric_reading() {
    let (mut bench, a) = asking();
    assert_eq!(record(&bench, a), None, "none yet");
    sends(&mut bench, a, &[]);
    sends(&mut bench, a, &[QUIET, signalling()]);
    assert_eq!(record(&bench, a), None, "no numeric one yet");
    sends(&mut bench, a, &[2.0]);
    assert_eq!(record(&bench, a), recorded(2.0, 2.0, 2.0));
    sends(&mut bench, a, &[1.0, 3.0, QUIET]);
    assert_eq!(record(&bench, a), recorded(3.0, 1.0, 3.0));
    sends(&mut bench, a, &[f32::INFINITY, f32::NEG_INFINITY, TINY]);
    let (least, most) = (f32::NEG_INFINITY, f32::INFINITY);
    assert_eq!(record(&bench, a), recorded(TINY, least, most));
}

#[test]
fn of_equal_extremes_the_first_stays_and_the_zeros_are_equal() {
    for (first, second) in [(0.0, -0.0), (-0.0, 0.0)] {
        let (mut bench, a) = asking();
        sends(&mut bench, a, &[first, second]);
        assert_eq!(record(&bench, a), recorded(second, first, first));
        sends(&mut bench, a, &[first]);
        sends(&mut bench, a, &[second]);
        assert_eq!(record(&bench, a), recorded(second, first, first));
        sends(&mut bench, a, &[TINY, second]);
        assert_eq!(record(&bench, a), recorded(second, first, TINY));
    }
}

#[test]
fn what_is_no_block_trips_nothing_and_changes_no_record() {
    let (mut bench, a) = watched(Watch::above(-1.0));
    sends(&mut bench, a, &[-5.0]);
    let before = record(&bench, a);
    let mut others = vec![b"+1.0E+1".to_vec(), vec![], b"#".to_vec(), b"#0\n".to_vec()];
    others.push([b"#41004", &[0x7f; 1004][..]].concat());
    others.push([&block(&[9.0])[..], b"\n"].concat());
    others.push([b"x", &block(&[9.0])[..]].concat());
    others.push(block(&[9.0])[..6].to_vec());
    for payload in others {
        assert_eq!(after_answer(&mut bench, a, &payload), []);
        assert_eq!(record(&bench, a), before, "{payload:?}");
    }
    assert_eq!(sends(&mut bench, a, &[9.0]), requests(a, 0x50));
}

#[test]
fn each_answer_is_a_block_of_its_own() {
    let (mut bench, a) = watched(Watch::above(1.0));
    let whole = block(&[2.0, 3.0]);
    assert_eq!(after_answer(&mut bench, a, &whole[..7]), []);
    assert_eq!(after_answer(&mut bench, a, &whole[7..]), []);
    assert_eq!(record(&bench, a), None);
    sends(&mut bench, a, &[0.5]);
    let ended = bench.answer(1, &block(&[4.0]), true).expect("asked");
    assert_eq!(ended[0].kind, DATA_END);
    assert_eq!(ended[1..], requests(a, 0x50), "behind the answer");
    assert_eq!(record(&bench, a), recorded(4.0, 0.5, 4.0));
}

#[test]
fn the_longest_block() {
    let (mut bench, a) = watched(Watch::above(1.0));
    let mut readings = vec![1.0; 250];
    readings[249] = 2.0;
    assert_eq!(sends(&mut bench, a, &readings), requests(a, 0x50));
    assert_eq!(record(&bench, a), recorded(2.0, 1.0, 2.0));
    let padded = [b"#9000001000", &block(&readings)[6..]].concat();
    assert_eq!(bench.server.watch(1, Watch::above(1.0)), Ok(()));
    assert_eq!(after_answer(&mut bench, a, &padded), requests(a, 0x50));
}

#[test]
fn a_withheld_or_refused_answer_counts_for_nothing() {
    let (mut bench, a) = watched(Watch::above(1.0));
    sends(&mut bench, a, &[0.0]);
    let reading = block(&[2.0]);
    let unread = message(DATA_END, 0, bench.next(a), b"READ?");
    let (withheld, frames) = bench
        .answer_beside(1, &reading, true, &unread)
        .expect("asked");
    assert!(withheld);
    assert_eq!(
        frames.iter().map(|frame| frame.kind).collect::<Vec<_>>(),
        [14, 13]
    );
    assert_eq!(record(&bench, a), recorded(0.0, 0.0, 0.0));
    bench.unchanged(|bench| {
        let told = bench.answer(1, &reading, true);
        assert_eq!(told, Err(Refusal::NothingAsked));
    });
    bench.ask(a);
    bench.deliver(a.asynchronous, &message(15, 0, 0, &6u64.to_be_bytes()));
    bench.unchanged(|bench| {
        let told = bench.answer(1, &reading, true);
        assert_eq!(told, Err(Refusal::AnswerTooLong));
    });
    bench.deliver(a.asynchronous, &message(15, 0, 0, &7u64.to_be_bytes()));
    assert_eq!(
        sends(&mut bench, a, &[2.0]),
        requests(a, 0x50),
        "not tripped before"
    );
}

#[test]
fn a_device_clear_keeps_both() {
    let (mut bench, a) = watched(Watch::above(1.0));
    sends(&mut bench, a, &[-3.0]);
    bench.send(a.asynchronous, CLEAR, 0, b"");
    let in_the_clear = record(&bench, a);
    assert_eq!(in_the_clear, recorded(-3.0, -3.0, -3.0));
    bench.send(a.sync, CLEARED, 0, b"");
    bench.ask(a);
    assert_eq!(sends(&mut bench, a, &[2.0, -3.0]), requests(a, 0x50));
    bench.answer(1, &block(&[-3.0]), true).expect("asked");
    assert_eq!(record(&bench, a), recorded(-3.0, -3.0, 2.0));
    bench.send(a.asynchronous, CLEAR, 0, b"");
    bench.send(a.sync, CLEARED, 0, b"");
    bench.ask(a);
    assert_eq!(sends(&mut bench, a, &[2.0]), [], "it has tripped");
}

#[test]
fn closing_forgets_both() {
    for by_cut in [true, false] {
        let (mut bench, a) = watched(Watch::above(1.0));
        sends(&mut bench, a, &[0.5]);
        match by_cut {
            true => drop(bench.cut(a.asynchronous)),
            false => drop(bench.deliver(a.sync, &message(FATAL, 0, 0, b""))),
        }
        let gone = |bench: &mut Bench| {
            let told = bench.server.readings(1).map(drop);
            (told, bench.server.watch(1, Watch::Off))
        };
        let none = Err(Refusal::NoSession);
        assert_eq!(gone(&mut bench), (none, none));
        let b = bench.session_on(0, 1);
        assert_eq!(b.number, 2);
        bench.ask(b);
        assert_eq!(record(&bench, b), None);
        assert_eq!(sends(&mut bench, b, &[2.0]), []);
        assert_eq!(record(&bench, b), recorded(2.0, 2.0, 2.0));
    }
}

#[test]
fn a_closing_leaves_other_sessions_watches() {
    let (mut bench, [a, b]) = Bench::with();
    for client in [a, b] {
        bench.ask(client);
        let set = bench.server.watch(client.number.into(), Watch::above(1.0));
        assert_eq!(set, Ok(()));
    }
    assert_eq!(sends(&mut bench, a, &[2.0]), requests(a, 0x50));
    assert_eq!(record(&bench, b), None, "each has its own");
    bench.cut(a.sync);
    assert_eq!(sends(&mut bench, b, &[3.0]), requests(b, 0x50));
    assert_eq!(record(&bench, b), recorded(3.0, 3.0, 3.0));
}

#[test]
fn a_half_open_session_may_have_a_watch() {
    let mut bench = Bench::new();
    let half = bench.half_open(4);
    assert_eq!(bench.server.watch(half.into(), Watch::above(1.0)), Ok(()));
    let bad = bench.server.watch(half.into(), Watch::above(QUIET));
    assert_eq!(bad, Err(Refusal::BadLimits));
    assert_eq!(bench.server.readings(half.into()), Ok(None));
    bench.open(5);
    bench.deliver(5, &message(17, 0, half.into(), b""));
    let a = Client {
        number: half,
        sync: 4,
        asynchronous: 5,
    };
    bench.ask(a);
    assert_eq!(sends(&mut bench, a, &[2.0]), requests(a, 0x50));
}

#[test]
fn in_overlap_mode_too() {
    let mut bench = Bench::preferring(Mode::Overlap);
    let a = bench.session_on(0, 1);
    assert_eq!(bench.server.watch(1, Watch::above(1.0)), Ok(()));
    let unread = message(DATA_END, 0, FIRST, b"READ?");
    let (withheld, frames) = bench
        .answer_beside(1, &block(&[2.0]), true, &unread)
        .expect("unasked");
    assert!(!withheld);
    assert_eq!(frames[1..], requests(a, 0x50));
    assert_eq!(record(&bench, a), recorded(2.0, 2.0, 2.0));
}
