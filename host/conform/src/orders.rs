//! A release that stands, and what may meet it, in every order: the message it names, another one, a
//! device clear and its end, a further lock message, somebody who waits, another's release, the closing.

use reference::Event;

use crate::bout::{Bout, Failed, Pair, BENCH};
use crate::messages::{
    clock, cut, deliver, header, lock, message, message_id, release, release_after, session,
};
use crate::numbers::mix;

/// The program whose release stands is session 1 on connections 0 and 1; 2 and 3 are beside it.
const SYNCHRONOUS: u32 = 0;
const ASYNCHRONOUS: u32 = 1;

/// What the program holds, and what it waits for, when its release comes.
fn holdings() -> [Vec<Event>; 4] {
    let others = [lock(3, b"k", 0), lock(3, b"", 0)];
    [
        vec![lock(ASYNCHRONOUS, b"", 0)],
        vec![lock(ASYNCHRONOUS, b"k", 0), others[0].clone()],
        vec![lock(ASYNCHRONOUS, b"k", 0), lock(ASYNCHRONOUS, b"", 0)],
        [
            &[lock(ASYNCHRONOUS, b"k", 0)],
            &others[..],
            &[lock(ASYNCHRONOUS, b"", 900)],
        ]
        .concat(),
    ]
}

/// Three sessions, and a release that names the program's first message or its second.
fn setups() -> Vec<Vec<Event>> {
    let mut setups = Vec::new();
    for held in holdings() {
        for named in [message_id(0), message_id(1)] {
            let sessions = [session(0, 1, 1), session(2, 3, 2), session(4, 5, 3)].concat();
            let release = release_after(ASYNCHRONOUS, named);
            setups.push([sessions, held.clone(), vec![release]].concat());
        }
    }
    setups
}

fn steps() -> Vec<Event> {
    vec![
        deliver(SYNCHRONOUS, message(7, 0, message_id(0), b"?")),
        deliver(SYNCHRONOUS, message(6, 0, message_id(1), b"x")),
        deliver(ASYNCHRONOUS, header(19, 0, 0, 0)),
        deliver(SYNCHRONOUS, header(8, 0, 0, 0)),
        lock(ASYNCHRONOUS, b"", 50),
        lock(5, b"other", 50),
        release(3),
        cut(SYNCHRONOUS),
    ]
}

/// What is left behind.
fn probes() -> Vec<Event> {
    vec![
        release(3),
        deliver(SYNCHRONOUS, message(12, 0, message_id(1), b"")),
        deliver(5, header(24, 0, 0, 0)),
        release_after(ASYNCHRONOUS, message_id(1)),
        clock(50),
        release(3),
        deliver(5, header(24, 0, 0, 0)),
    ]
}

/// The order of a number below the factorial of the length.
fn ordered(mut steps: Vec<Event>, mut number: u64) -> Vec<Event> {
    let mut order = Vec::with_capacity(steps.len());
    while !steps.is_empty() {
        let left = steps.len() as u64;
        order.push(steps.remove((number % left) as usize));
        number /= left;
    }
    order
}

/// What follows a setup: one order in `thin`, with the probes behind it.
fn lists(setup: u64, thin: u64) -> impl Iterator<Item = Vec<Event>> {
    let orders: u64 = (1..=steps().len() as u64).product();
    let chosen = move |number: &u64| mix(number + setup * orders).is_multiple_of(thin);
    let list = |number| [ordered(steps(), number), probes()].concat();
    (0..orders).filter(chosen).map(list)
}

/// One order in `thin`; returns the events run.
pub fn check(pair: Pair, thin: u64) -> Result<usize, Failed> {
    let mut count = 0;
    for (place, setup) in (0..).zip(setups()) {
        let mut ready = Bout::new(pair, BENCH);
        let ran = ready.run(&setup);
        ran.map_err(|found| Failed::after(&[], &setup, found, "orders"))?;
        let mut bout = Bout::new(pair, BENCH);
        for list in lists(place, thin) {
            bout.restart_from(&ready);
            let ran = bout.run(&list);
            ran.map_err(|found| Failed::after(&setup, &list, found, "orders"))?;
            count += list.len();
        }
    }
    Ok(count)
}

/// The same lists from the beginning, for one server.
pub fn whole(thin: u64) -> impl Iterator<Item = Vec<Event>> {
    let all = (0..).zip(setups());
    all.flat_map(move |(place, setup)| {
        lists(place, thin).map(move |list| [&setup[..], &list].concat())
    })
}

#[cfg(test)]
mod tests {
    use super::{ordered, setups};
    use crate::bout::BENCH;
    use reference::{Event, Reply, Server, Subject};

    #[test]
    fn every_order_is_there_once() {
        let steps = vec![
            Event::Status { status: 1 },
            Event::Status { status: 2 },
            Event::Status { status: 3 },
        ];
        let orders = (0..6).map(|number| format!("{:?}", ordered(steps.clone(), number)));
        let different: std::collections::BTreeSet<String> = orders.collect();
        assert_eq!(different.len(), 6);
    }

    #[test]
    fn in_every_setup_the_release_stands() {
        let mut out = [0; 2048];
        for setup in setups() {
            let mut server = <Server as Subject>::new(BENCH);
            let replies = setup
                .iter()
                .map(|event| server.apply(event, &mut out[..event.room()]));
            let replies: Vec<Reply> = replies.collect();
            assert!(replies.iter().all(|reply| reply.refusal == 0));
            let view = server.lock_view();
            assert!(view.sessions[0].standing.is_some());
        }
    }
}
