//! A row for each place that random lists hardly reach.

use reference::compose::{block, patterns, watch};
use reference::{Event, Watch};

use crate::bout::{Bout, Failed, Pair, BENCH};
use crate::messages::{
    answer, answer_beside, deliver, header, lock, message, message_id, release_after, session,
};

/// A message's length that is just too large, and one that is far too large.
const TOO_LARGE: [u64; 2] = [1025, u64::MAX];

/// Sessions 1 and 2 on connections 0 to 3.
fn two() -> Vec<Event> {
    [session(0, 1, 1), session(2, 3, 2)].concat()
}

fn asks(count: u32) -> Event {
    deliver(0, message(7, 0, message_id(count), b"?"))
}

fn clear() -> Event {
    deliver(1, header(19, 0, 0, 0))
}

/// a too large message in a clear moves nothing; one without access moves the expectation if it is in
/// step.
fn too_large() -> Vec<Vec<Event>> {
    let mut rows = Vec::new();
    for length in TOO_LARGE {
        for (kind, number) in [(6, 0), (7, 0), (12, 0), (6, 1), (8, 0)] {
            let large = deliver(0, header(kind, 0, message_id(number), length));
            let rest = deliver(0, vec![0; 1025]);
            let next = [asks(0), asks(1)];
            let complete = deliver(0, header(8, 0, 0, 0));
            let in_clear = [clear(), large.clone(), rest.clone(), complete];
            rows.push([&in_clear[..], &next].concat());
            let without_access = [lock(3, b"", 0), large, rest];
            let freed = release_after(3, 0xffff_fefe);
            rows.push([&without_access[..], &next, &[freed], &next].concat());
        }
    }
    rows
}

/// in a clear a waiting request's 0 comes before the release's answer, and that before the
/// acknowledgement.
fn cleared() -> Vec<Vec<Event>> {
    let shares = [lock(1, b"k", 0), lock(3, b"k", 0), lock(3, b"", 0)];
    let waits = [lock(1, b"", 900), release_after(1, message_id(0))];
    let other = release_after(3, 0xffff_fefe);
    vec![
        [&shares[..], &waits, &[clear(), other.clone()]].concat(),
        [&shares[..], &waits, &[other, clear(), asks(0)]].concat(),
    ]
}

/// a too large header shown interrupts; one behind a remainder does not; RMT-delivered of a too large
/// message is not read.
fn shown() -> Vec<Vec<Event>> {
    let mut rows = Vec::new();
    for length in TOO_LARGE {
        let large = header(7, 1, message_id(1), length);
        let beside = |shown: &[u8]| answer_beside(1, b"1", 1, shown);
        let mut remainder = vec![asks(0), deliver(0, &large[..])];
        rows.push(vec![asks(0), beside(&large), deliver(0, &large[..])]);
        remainder.push(beside(&message(7, 0, message_id(2), b"?")));
        rows.push(remainder);
        for rmt_delivered in [0, 1] {
            let next = deliver(0, message(7, rmt_delivered, message_id(2), b"?"));
            let skipped = deliver(0, vec![0; 1025]);
            let told = deliver(1, header(21, 0, 0, 0));
            let ended = answer(1, b"1", 1);
            let sent = deliver(0, &large[..]);
            rows.push(vec![asks(0), ended, sent, told, skipped, next]);
        }
    }
    rows
}

/// a watch set again, with and without a trip between, is armed again; a status query and a clear arm
/// nothing.
fn watched() -> Vec<Vec<Event>> {
    let set = watch(1, Watch::above(1.0));
    let trips = answer(1, &block(&[2.0]), 0);
    let query = deliver(1, header(21, 0, 0, 0));
    let between = [
        set.clone(),
        query,
        clear(),
        watch(1, Watch::Off),
        trips.clone(),
    ];
    let row = |event: &Event| {
        let first = [asks(0), set.clone(), trips.clone(), event.clone()];
        let complete = deliver(0, header(8, 0, 0, 0));
        [&first[..], &[complete, asks(1), asks(0), trips.clone()]].concat()
    };
    between.iter().map(row).collect()
}

/// the ninth bracket directly behind eight, and the eighth.
fn ninth_bracket() -> Vec<Vec<Event>> {
    let deep = |depth: usize| format!("A{}:B{}", "[".repeat(depth), "]".repeat(depth));
    let nested = |depth: usize| format!("A{}{}", "[:B".repeat(depth), "]".repeat(depth));
    let command = deliver(0, message(7, 0, message_id(0), b"A:B"));
    let row = |pattern: String| vec![patterns(&[pattern]), command.clone()];
    [7, 8, 9, 10]
        .map(deep)
        .into_iter()
        .chain([8, 9].map(nested))
        .map(row)
        .collect()
}

fn rows() -> Vec<Vec<Event>> {
    [too_large(), cleared(), shown(), watched(), ninth_bracket()].concat()
}

/// Returns the events run.
pub fn check(pair: Pair) -> Result<usize, Failed> {
    let setup = two();
    let mut ready = Bout::new(pair, BENCH);
    let ran = ready.run(&setup);
    ran.map_err(|found| Failed::after(&[], &setup, found, "corners"))?;
    let mut bout = Bout::new(pair, BENCH);
    let mut count = setup.len();
    for row in rows() {
        bout.restart_from(&ready);
        let ran = bout.run(&row);
        ran.map_err(|found| Failed::after(&setup, &row, found, "corners"))?;
        count += row.len();
    }
    Ok(count)
}

#[cfg(test)]
mod tests {
    use super::{cleared, ninth_bracket, rows, shown, too_large, two, watched};
    use crate::bout::BENCH;
    use reference::event::frames;
    use reference::{Event, Reply, Server, Subject};

    /// Types and codes that a row sends, with the outcome or what was withheld of each event.
    fn said(row: &[Event]) -> Vec<(Reply, Vec<(u8, u8)>)> {
        let mut server = <Server as Subject>::new(BENCH);
        let mut out = [0; 2048];
        let mut told = |event: &Event| {
            let reply = server.apply(event, &mut out[..event.room()]);
            let sent = frames(&out[..reply.output as usize]).expect("whole frames");
            let kinds = sent.iter().map(|frame| (frame.kind, frame.code)).collect();
            (reply, kinds)
        };
        two().iter().for_each(|event| drop(told(event)));
        row.iter().map(told).collect()
    }

    fn kinds(row: &[Event]) -> Vec<(u8, u8)> {
        said(row).into_iter().flat_map(|told| told.1).collect()
    }

    #[test]
    fn rows_reach_what_they_are_for() {
        let error_4 = |row: &Vec<Event>| kinds(row).contains(&(3, 4));
        assert!(too_large().iter().all(error_4));
        let first = kinds(&cleared()[0]);
        let at = |wanted: &[(u8, u8)]| first.windows(wanted.len()).any(|found| found == wanted);
        assert!(at(&[(5, 0), (5, 2), (23, 0)]), "{first:?}");
        let withheld = |row: &Vec<Event>| said(row).iter().any(|told| told.0.withheld != 0);
        let shown = shown();
        assert!(withheld(&shown[0]) && !withheld(&shown[1]));
        let requests = watched().into_iter().map(|row| kinds(&row));
        let requests = requests.map(|sent| sent.iter().filter(|told| told.0 == 20).count());
        assert_eq!(requests.collect::<Vec<_>>(), [2, 1, 1, 1, 1]);
        let listed = ninth_bracket().into_iter().map(|row| said(&row)[0].0);
        let places: Vec<u64> = listed.map(|reply| reply.place).collect();
        assert_eq!(places, [0, 0, 9, 9, 0, 25]);
        assert_eq!(rows().len(), 20 + 2 + 8 + 5 + 6);
    }
}
