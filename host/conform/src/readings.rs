//! Blocks good and bad at every byte, limits and readings of every kind, and what becomes of a watch and a
//! record.

use reference::compose::watch;
use reference::{Event, Fresh, Mode, Watch};

use crate::bout::{check_list, Bout, Failed, Pair, BENCH};
use crate::floats::{above, block, outside, with_digits, BITS};
use crate::messages::{
    answer, answer_beside, cut, deliver, half_open, header, message, message_id, session,
};

/// As bits: 1, 2, -1, something that is not a number, and infinity.
const ONE: u32 = 0x3f80_0000;
const TWO: u32 = 0x4000_0000;
const MINUS_ONE: u32 = 0xbf80_0000;
const NOT_A_NUMBER: u32 = 0x7fc0_0000;
const INFINITE: u32 = 0x7f80_0000;

/// Session 1 has asked and is never done; session 2 is beside it, and the status byte is neither 16 nor 64.
fn asked() -> Vec<Event> {
    let question = deliver(0, message(7, 0, message_id(0), b"READ?"));
    let status = Event::Status { status: 0x81 };
    [session(0, 1, 1), session(2, 3, 2), vec![question, status]].concat()
}

/// Part of an answer, so that more can follow.
fn sends(payload: &[u8]) -> Event {
    answer(1, payload, 0)
}

/// Payloads around a block of two readings: each byte of its head with every value, and other lengths.
fn damaged() -> Vec<Vec<u8>> {
    let floats = [ONE.to_be_bytes(), TWO.to_be_bytes()].concat();
    let mut payloads = Vec::new();
    for digits in 1..=9 {
        let good = with_digits(digits, &floats);
        for place in 0..2 + digits {
            payloads.extend((0..=255).map(|byte| {
                let mut bad = good.clone();
                bad[place] = byte;
                bad
            }));
        }
        payloads.extend((0..good.len()).map(|length| good[..length].to_vec()));
        payloads.extend((1..6).map(|more| [&good[..], &vec![0; more]].concat()));
    }
    payloads
}

/// Counts around their limits, whole and not, with leading zeros and without; then every byte of a reading.
fn sized() -> Vec<Vec<u8>> {
    let counts = (0..=16).chain(992..=1012);
    let with = |count| (1..=9).map(move |digits| (digits, count));
    let fits = |(digits, count): &(usize, usize)| count.to_string().len() <= *digits;
    let mut payloads: Vec<_> = counts
        .flat_map(with)
        .filter(fits)
        .map(|(digits, count)| with_digits(digits, &vec![0x41; count]))
        .collect();
    for place in 0..4 {
        payloads.extend((0..=255).map(|byte| {
            let mut floats = ONE.to_be_bytes();
            floats[place] = byte;
            with_digits(1, &floats)
        }));
    }
    payloads
}

/// Every limit with every reading, twice, and every two readings one after another and in one block.
fn compared() -> Vec<Vec<Event>> {
    let limits = BITS.iter().map(|limit| above(*limit));
    let pairs = BITS
        .iter()
        .flat_map(|low| BITS.iter().map(move |high| (*low, *high)));
    let watches = limits.chain(pairs.clone().map(|(low, high)| outside(low, high)));
    let mut lists = Vec::new();
    for set in watches {
        lists.extend(BITS.map(|reading| {
            let sent = sends(&block(&[reading]));
            vec![watch(1, set), sent.clone(), sent]
        }));
    }
    for (first, second) in pairs {
        let (one, other) = (block(&[first]), block(&[second]));
        lists.push(vec![sends(&one), sends(&other), sends(&one)]);
        lists.push(vec![sends(&block(&[first, second, first]))]);
    }
    lists
}

/// A watch set again, the same or another, before a trip and after it; and whose watch it is.
fn set_again() -> Vec<Vec<Event>> {
    let watches = [
        Watch::Off,
        above(ONE),
        above(TWO),
        outside(MINUS_ONE, ONE),
        above(NOT_A_NUMBER),
        outside(TWO, ONE),
    ];
    let readings = [ONE, TWO, INFINITE, NOT_A_NUMBER].map(|reading| sends(&block(&[reading])));
    let mut lists = Vec::new();
    for first in watches {
        for second in watches {
            for sent in &readings {
                let once = [watch(1, first), sent.clone(), watch(1, second)];
                let twice = [sent.clone(), watch(2, first), sent.clone()];
                lists.push([&once[..], &twice].concat());
            }
        }
    }
    lists
}

/// What else happens between a trip and the next: status bytes, clears, answers that are not sent, sessions
/// that end and begin.
fn between() -> Vec<Vec<Event>> {
    let set = watch(1, above(ONE));
    let numbers = [0, 1, 2, 3, 65_537, u32::MAX];
    let status = |status| vec![set.clone(), Event::Status { status }, trips()];
    let mut lists = [over_clears(), over_answers()].concat();
    lists.extend((0..=255).map(status));
    lists.extend(numbers.map(|number| vec![watch(number, above(ONE)), watch(number, Watch::Off)]));
    lists.extend(numbers.map(|number| vec![watch(number, above(NOT_A_NUMBER))]));
    lists
}

/// An answer of session 1 that trips a watch above 1.
fn trips() -> Event {
    sends(&block(&[TWO]))
}

fn asks(count: u32) -> Event {
    deliver(0, message(7, 0, message_id(count), b"READ?"))
}

/// Clears and a cut between the watch and the reading.
fn over_clears() -> Vec<Vec<Event>> {
    let set = watch(1, above(ONE));
    let clear = deliver(1, header(19, 0, 0, 0));
    let cleared = |code| deliver(0, header(8, code, 0, 0));
    vec![
        vec![
            set.clone(),
            clear.clone(),
            trips(),
            cleared(0),
            asks(0),
            trips(),
        ],
        vec![set.clone(), trips(), clear, cleared(1), asks(0), trips()],
        vec![trips(), cut(0), set, trips()],
    ]
}

/// Answers withheld, not ended, too long for the client, and another session's.
fn over_answers() -> Vec<Vec<Event>> {
    let set = watch(1, above(ONE));
    let two = block(&[TWO]);
    let shown = message(7, 0, message_id(1), b"?");
    let beside = |end| answer_beside(1, &two, end, shown.clone());
    let size = |bytes: u64| deliver(1, message(15, 0, 0, &bytes.to_be_bytes()));
    let sizes = [6, 7, 1024].map(|bytes| [size(bytes), trips()]);
    vec![
        vec![set.clone(), beside(1), asks(1), trips()],
        vec![set.clone(), beside(0), trips()],
        [&[set.clone()], &sizes.concat()[..]].concat(),
        vec![set.clone(), answer(1, &two, 1), trips(), asks(1), trips()],
        vec![set, answer(2, &two, 0), watch(2, above(ONE)), trips()],
    ]
}

/// A half-open session's watch, which waits for its other half; sessions that take one another's place.
fn opening() -> Vec<Event> {
    let joins = |connection, number| {
        let join = deliver(connection, message(17, 0, number, b""));
        [Event::Open { connection }, join]
    };
    let asks = |connection| deliver(connection, message(12, 0, message_id(0), b""));
    let sent = |number| answer(number, &block(&[NOT_A_NUMBER, TWO]), 0);
    let mut list = half_open(4).to_vec();
    list.extend([watch(1, above(ONE)), sent(1)]);
    list.extend(joins(5, 1));
    list.extend([asks(4), sent(1), cut(5), watch(1, above(ONE)), sent(1)]);
    list.extend(session(4, 5, 2));
    list.extend([
        asks(4),
        sent(2),
        watch(2, outside(ONE, TWO)),
        sent(2),
        cut(4),
    ]);
    list.extend(half_open(5));
    list.extend(joins(4, 3));
    list.extend([asks(5), sent(3), watch(3, above(ONE)), sent(3), sent(3)]);
    list
}

/// What a list leaves behind shows in the record, which is asked for after every event, and in these.
fn probes() -> [Event; 3] {
    let second = sends(&block(&[INFINITE]));
    [
        second.clone(),
        deliver(1, header(21, 0, message_id(0), 0)),
        second,
    ]
}

fn lists() -> Vec<Vec<Event>> {
    let payloads = damaged().into_iter().chain(sized());
    let watched = payloads.map(|payload| vec![watch(1, above(ONE)), sends(&payload)]);
    let others = [compared(), set_again(), between()].concat();
    watched.chain(others).collect()
}

/// In both modes; returns the events run.
pub fn check(pair: Pair) -> Result<usize, Failed> {
    let mut count = 0;
    for prefers in [Mode::Synchronized, Mode::Overlap] {
        let fresh = Fresh { prefers, ..BENCH };
        count += check_list(pair, fresh, "readings", &opening())?;
        count += check_mode(pair, fresh)?;
    }
    Ok(count)
}

fn check_mode(pair: Pair, fresh: Fresh) -> Result<usize, Failed> {
    let setup = asked();
    let failed = |before: &[Event], list: &[Event], found| {
        Failed::after(before, list, found, "readings").from(fresh)
    };
    let mut ready = Bout::new(pair, fresh);
    let ran = ready.run(&setup);
    ran.map_err(|found| failed(&[], &setup, found))?;
    let mut bout = Bout::new(pair, fresh);
    let mut count = setup.len();
    for list in lists() {
        let list = [list, probes().to_vec()].concat();
        bout.restart_from(&ready);
        let ran = bout.run(&list);
        ran.map_err(|found| failed(&setup, &list, found))?;
        count += list.len();
    }
    Ok(count)
}
