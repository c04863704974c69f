//! More than 65,535 openings, so that SessionIDs go round, with live sessions in the way: one long
//! list, then random ones from just before the end of the numbers.

use reference::Event;

use crate::bout::{Bout, Difference, Failed, Pair, BENCH};
use crate::hostile::{play, Author};
use crate::messages::{
    answer, clock, cut, deliver, half_open, lock, message, message_id, release, session,
};

/// Random lists that begin just before the end of the numbers.
const LISTS: u64 = 60;

/// Numbers are used up to 65,530; of them an established session, a half-open one and another
/// established one, numbers 1 to 3, are live.
fn used_up() -> Vec<Event> {
    let mut list = session(20, 21, 1);
    list.extend(half_open(22));
    list.extend(session(24, 25, 3));
    for number in 4..=65_530 {
        let connection = number % 3;
        list.extend(half_open(connection));
        list.push(cut(connection));
    }
    list
}

fn around_the_end() -> Vec<Event> {
    let mut list = vec![lock(25, b"wrap", 0)];
    // More sessions stay, so that the search passes over several; each is used.
    let numbers = (65_531..=65_535).chain(4..=8);
    for (connection, number) in (0..).zip(numbers) {
        list.extend(session(connection, connection + 10, number));
        list.push(deliver(connection, message(7, 0, message_id(0), b"?")));
        list.push(lock(connection + 10, b"wrap", 100));
    }
    for number in [65_530, 65_531, 65_535, 65_536, 0, 1, 2, 3, 4, 8, 9] {
        list.push(answer(number, b"x", 1));
    }
    list.push(lock(21, b"", 100));
    list.push(release(25));
    for connection in [22, 25, 20, 4, 5, 16] {
        list.push(cut(connection));
        list.extend(half_open(connection));
    }
    list.push(clock(100));
    list
}

/// Returns the events run.
pub fn check(pair: Pair) -> Result<usize, Failed> {
    const AGAIN: &str = "wrap";
    let used_up = used_up();
    let mut ready = Bout::new(pair, BENCH);
    let ran = ready.run(&used_up);
    ran.map_err(|found| Failed::after(&[], &used_up, found, AGAIN))?;
    let mut count = used_up.len();
    let mut bout = Bout::new(pair, BENCH);
    let mut check = |list: Vec<Event>, ran: Result<(), Difference>| {
        count += list.len();
        ran.map_err(|found| Failed::after(&used_up, &list, found, AGAIN))
    };
    bout.restart_from(&ready);
    let list = around_the_end();
    let ran = bout.run(&list);
    check(list, ran)?;
    for seed in 1..=LISTS {
        bout.restart_from(&ready);
        let (list, ran) = play(&mut bout, Author::new(seed));
        check(list, ran)?;
    }
    Ok(count)
}

#[cfg(test)]
mod tests {
    use super::{around_the_end, used_up, LISTS};
    use crate::bout::BENCH;
    use crate::hostile::{lead, Author};
    use reference::{Event, Reply, Server, Subject};

    fn run(server: &mut dyn Subject, list: Vec<Event>) -> Vec<(Event, Reply)> {
        let mut out = [0; 2048];
        let mut apply = |event: Event| {
            let reply = server.apply(&event, &mut out[..event.room()]);
            (event, reply)
        };
        list.into_iter().map(&mut apply).collect()
    }

    /// The session numbers issued in a list.
    fn issued(list: &[(Event, Reply)]) -> Vec<u64> {
        let opened = |(event, reply): &&(Event, Reply)| {
            matches!(event, Event::Deliver { bytes, .. } if bytes.get(2) == Some(&0))
                && reply.outcome == Reply::ACTED_ON
        };
        let opened = list.iter().filter(opened);
        opened.map(|(_, reply)| reply.session).collect()
    }

    /// The number that follows 65,535.
    fn after_the_last(numbers: &[u64]) -> Option<u64> {
        let mut pairs = numbers.windows(2);
        pairs.find(|two| two[0] == 65_535).map(|two| two[1])
    }

    #[test]
    fn numbers_go_round_and_pass_over_live_ones() {
        let mut server = <Server as Subject>::new(BENCH);
        let numbers = issued(&run(&mut server, used_up()));
        assert_eq!(numbers, (1..=65_530).collect::<Vec<_>>());
        let list = run(server.fork().as_mut(), around_the_end());
        assert_eq!(after_the_last(&issued(&list)), Some(4), "1 to 3 are live");
        let round = (1..=LISTS).filter(|seed| {
            let list = lead(server.fork().as_mut(), Author::new(*seed));
            // The list itself may close numbers 1 to 3.
            after_the_last(&issued(&list)).is_some_and(|next| (1..=4).contains(&next))
        });
        let round = round.count() as u64;
        assert!(3 * round >= LISTS, "{round} of {LISTS} lists go round");
    }
}
