//! Every type, code and length class in every state of a connection.

use std::slice;

use reference::history::omitted;
use reference::limits::{CONNECTIONS, LOCK_STRING};
use reference::wire::{class, Channel, Class};
use reference::{Event, Fresh, Mode};

use crate::bout::{Bout, Difference, Failed, Pair, BENCH};
use crate::messages::{
    answer, clock, cut, deliver, half_open, header, lock, message, release, release_after, session,
};
use crate::numbers::mix;

/// A code of every class; all codes where they can matter and nothing is thinned.
const CODES: [u8; 10] = [0, 1, 2, 3, 4, 5, 6, 7, 128, 255];
const LENGTHS: [u64; 12] = [
    0,
    1,
    7,
    8,
    9,
    LOCK_STRING as u64,
    LOCK_STRING as u64 + 1,
    1024,
    1025,
    1 << 32,
    u64::MAX - 15,
    u64::MAX,
];

/// The connection that stays without a role.
const LAST: u32 = CONNECTIONS as u32 - 1;

/// One that is not open, but with all sessions live.
const FREE: u32 = LAST - 2;

/// A program's first two MessageIDs.
const ONE: u32 = 0xffff_ff00;
const TWO: u32 = 0xffff_ff02;

/// How much of the payload is in the delivery.
#[derive(Clone, Copy)]
enum Shown {
    Nothing,
    Part,
    All,
}

pub struct State {
    pub name: &'static str,
    fresh: Fresh,
    setup: Vec<Event>,
    /// The connection that gets the message.
    connection: u32,
    /// Half-open session's number, MessageID or timeout.
    parameter: u32,
}

/// Sessions 1 and 2 on connections 0 to 3, then what is given.
fn two(then: &[Event]) -> Vec<Event> {
    [session(0, 1, 1), session(2, 3, 2), then.to_vec()].concat()
}

/// So many live sessions, the last one half-open, and the last connection without a role.
fn crowd(live: u32) -> Vec<Event> {
    let mut events = Vec::new();
    for number in 1..live {
        let connection = 2 * (number - 1);
        events.extend(session(connection, connection + 1, number));
    }
    events.extend(half_open(LAST - 1));
    events.push(Event::Open { connection: LAST });
    events
}

fn state(name: &'static str, connection: u32, parameter: u32, setup: Vec<Event>) -> State {
    State {
        name,
        fresh: BENCH,
        setup,
        connection,
        parameter,
    }
}

pub fn states() -> Vec<State> {
    let all = [
        opening(),
        plain(),
        clearing(),
        locking(),
        releasing(),
        overlapping(),
        remaining(),
    ];
    all.into_iter().flatten().collect()
}

/// Connections that have no session yet, or half of one.
fn opening() -> Vec<State> {
    let undecided = Event::Open { connection: LAST };
    let alone = [&half_open(0)[..], slice::from_ref(&undecided)].concat();
    let beside = two(&[&half_open(8)[..], slice::from_ref(&undecided)].concat());
    vec![
        state("no role, nobody there", LAST, 1, vec![undecided]),
        state("no role, number 1 half-open", LAST, 1, alone),
        state("no role, number 3 half-open", LAST, 3, beside.clone()),
        state("no role, naming an established session", LAST, 2, beside),
        state("half-open", 0, 1, half_open(0).to_vec()),
        state("31 sessions live", LAST, 31, crowd(31)),
        state("32 sessions live", LAST, 32, crowd(32)),
    ]
}

fn plain() -> Vec<State> {
    let answered = two(&[deliver(0, message(7, 0, ONE, b"?")), answer(1, b"x", 0)]);
    vec![
        state("synchronous", 0, ONE, two(&[])),
        state("synchronous, out of step", 0, 7, two(&[])),
        state("asynchronous", 1, 7, two(&[])),
        state("asynchronous, timeout 0", 1, 0, two(&[])),
        state("synchronous, answered", 0, TWO, answered.clone()),
        state("asynchronous, answered", 1, 7, answered),
    ]
}

fn clearing() -> Vec<State> {
    let clear = deliver(1, header(19, 0, 0, 0));
    let locked = two(&[lock(3, b"", 0), lock(1, b"k", 50), clear.clone()]);
    vec![
        state(
            "synchronous in a clear",
            0,
            ONE,
            two(slice::from_ref(&clear)),
        ),
        state("asynchronous in a clear", 1, 7, two(&[clear])),
        state("in a clear without access", 0, ONE, locked),
    ]
}

fn locking() -> Vec<State> {
    let exclusive = two(&[lock(3, b"", 0)]);
    let shared = two(&[lock(3, b"k", 0)]);
    let waits = two(&[lock(3, b"", 0), lock(1, b"k", 50)]);
    let holds = two(&[lock(1, b"k", 0), lock(1, b"", 0), lock(3, b"k", 50)]);
    vec![
        state("synchronous without access", 0, ONE, exclusive),
        state("synchronous, others shared", 0, ONE, shared.clone()),
        state("asynchronous, others shared", 1, 7, shared),
        state("asynchronous, waiting", 1, 7, waits),
        state("synchronous, another waits", 0, ONE, holds.clone()),
        state("asynchronous, another waits", 1, 7, holds),
    ]
}

/// A release stands, or may act at once. The messages of these states are in step.
fn releasing() -> Vec<State> {
    let both = [lock(1, b"k", 0), lock(1, b"", 0)];
    let after = |number| [&both[..], &[release_after(1, number)]].concat();
    let wanted = [after(ONE), vec![lock(3, b"k", 50)]].concat();
    let beside = [
        &[lock(1, b"k", 0), lock(3, b"k", 0), lock(3, b"", 0)],
        &[lock(1, b"", 50), release_after(1, ONE)][..],
    ]
    .concat();
    let clear = deliver(1, header(19, 0, 0, 0));
    let in_clear = [&[clear][..], &wanted].concat();
    let acted = [&[deliver(0, message(6, 0, ONE, b"x"))], &both[..]].concat();
    vec![
        state("synchronous, a release stands for it", 0, ONE, two(&wanted)),
        state(
            "synchronous, a release stands for the next",
            0,
            ONE,
            two(&after(TWO)),
        ),
        state("asynchronous, a release stands", 1, 7, two(&wanted)),
        state("a release stands beside a request", 1, 7, two(&beside)),
        state("held, a release stands for it", 0, ONE, two(&beside)),
        state("in a clear, a release stands", 0, ONE, two(&in_clear)),
        state("clearing again, a release stands", 1, 7, two(&in_clear)),
        state("asynchronous, its message has acted", 1, ONE, two(&acted)),
        state(
            "asynchronous, another message has acted",
            1,
            TWO,
            two(&acted),
        ),
    ]
}

/// Overlap mode, preferred or asked for in a clear.
fn overlapping() -> Vec<State> {
    let clear = deliver(1, header(19, 0, 0, 0));
    let asked = [clear.clone(), deliver(0, header(8, 1, 0, 0))];
    let answers = [answer(1, b"x", 0), answer(1, b"y", 1)];
    let answered = [&asked[..], &answers].concat();
    let clearing = [&answered[..], &[clear]].concat();
    let number = 0xffff_ff02;
    let mut states = vec![
        state("synchronous, overlap", 0, ONE, two(&asked)),
        state("asynchronous, overlap", 1, number, two(&asked)),
        state("overlap, all delivered", 1, number, two(&answered)),
        state("overlap, one not delivered", 1, 0xffff_ff00, two(&answered)),
        state("synchronous, clear in overlap", 0, 0, two(&clearing)),
        state("asynchronous, clear in overlap", 1, 0, two(&clearing)),
    ];
    let undecided = [&half_open(0)[..], &[Event::Open { connection: 31 }]].concat();
    let preferred = [
        state("no role, overlap preferred", 31, 1, undecided),
        state("half-open, overlap preferred", 0, 1, half_open(0).to_vec()),
        state("overlap preferred, all delivered", 1, number, two(&answers)),
    ];
    states.extend(preferred.map(|state| State {
        fresh: Fresh {
            prefers: Mode::Overlap,
            ..BENCH
        },
        ..state
    }));
    states
}

/// Connections with payload of a too large message still to come.
fn remaining() -> Vec<State> {
    let skip = |on: u32, length: u64| deliver(on, header(6, 0, 0, length));
    let few = two(&[skip(0, 1025), deliver(0, vec![0; 985])]);
    let endless = two(&[skip(1, u64::MAX)]);
    vec![
        state("remainder of 40", 0, ONE, few),
        state("remainder near 2^64", 1, 7, endless),
    ]
}

fn case(state: &State, kind: u8, code: u8, length: u64, shown: Shown) -> Event {
    let mut bytes = header(kind, code, state.parameter, length);
    let here = length.min(1100) as usize;
    let here = match shown {
        Shown::Nothing => 0,
        Shown::Part => here / 2,
        Shown::All => here,
    };
    // The first seven bytes are the good sub-address.
    bytes.extend(b"hislip0".iter().chain([b'q'].iter().cycle()).take(here));
    deliver(state.connection, bytes)
}

/// Events that show what a message left behind.
fn probes(state: &State) -> Vec<Event> {
    vec![
        deliver(state.connection, header(3, 0, 0, 0)),
        deliver(0, message(7, 1, ONE, b"probe")),
        deliver(0, message(7, 0, TWO, b"probe")),
        deliver(2, message(6, 0, ONE, b"probe")),
        deliver(1, header(21, 0, 0xffff_ff00, 0)),
        deliver(3, header(24, 0, 0, 0)),
        answer(1, b"1234567890", 1),
        answer(1, b"", 1),
        clock(7),
        release_after(1, TWO),
        release_after(3, ONE),
        release(3),
        deliver(1, header(19, 0, 0, 0)),
        cut(state.connection),
        Event::Open { connection: FREE },
        deliver(FREE, message(0, 0, 0x0100_0000, b"")),
    ]
}

/// Runs all cases of the states, each with demand 3; of the cases with an effect, one in `thin` is
/// followed by probes. With `thin` 1, every code of the types that are acted on. Returns the events
/// run.
pub fn check(pair: Pair, thin: u64) -> Result<usize, Failed> {
    let mut count = 0;
    for state in states() {
        count += check_state(pair, &state, thin)?;
    }
    Ok(count)
}

fn codes(kind: u8, thin: u64) -> Vec<u8> {
    let channels = [Channel::Synchronous, Channel::Asynchronous];
    let acted_on = channels.map(|channel| class(channel, kind) == Class::ActedOn);
    match thin == 1 && acted_on.contains(&true) {
        true => (0..=255).collect(),
        false => CODES.to_vec(),
    }
}

/// Every message of the list, in a fixed order.
fn cases(state: &State, thin: u64) -> impl Iterator<Item = Event> + '_ {
    let shown = [Shown::Nothing, Shown::Part, Shown::All];
    (0..=255).flat_map(move |kind| {
        codes(kind, thin).into_iter().flat_map(move |code| {
            LENGTHS.into_iter().flat_map(move |length| {
                let one = move |shown| case(state, kind, code, length, shown);
                shown.into_iter().map(one)
            })
        })
    })
}

fn check_state(pair: Pair, state: &State, thin: u64) -> Result<usize, Failed> {
    let failed = |before: &[Event], list: &[Event], mut found: Difference| {
        found.what = format!("state \"{}\": {}", state.name, found.what);
        Failed::after(before, list, found, "systematic").from(state.fresh)
    };
    let mut ready = Bout::new(pair, state.fresh);
    let ran = ready.run(&state.setup);
    ran.map_err(|found| failed(&[], &state.setup, found))?;
    let mut bout = Bout::new(pair, state.fresh);
    let all_probes = probes(state);
    let mut count = state.setup.len();
    for (number, event) in (0..).zip(cases(state, thin)) {
        let chosen = mix(number).is_multiple_of(thin);
        let probes = if chosen { &all_probes[..] } else { &[] };
        bout.restart_from(&ready);
        count += check_case(&mut bout, &event, probes).map_err(|found| {
            let list = [slice::from_ref(&event), probes].concat();
            failed(&state.setup, &list, found)
        })?;
    }
    Ok(count)
}

/// One case from the prepared state; returns the events run.
fn check_case(bout: &mut Bout, event: &Event, probes: &[Event]) -> Result<usize, Difference> {
    let at = |place| move |what| Difference { place, what };
    let reply = bout.event(event).map_err(at(0))?;
    if omitted(event, &reply) {
        return Ok(1);
    }
    for (place, probe) in (1..).zip(probes) {
        bout.event(probe).map_err(at(place))?;
    }
    bout.end().map_err(at(probes.len()))?;
    Ok(1 + probes.len())
}
