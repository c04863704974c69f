//! A shorter list that still fails: parts are left out, then bytes, as long as it fails.

use std::time::{Duration, Instant};

use reference::Event;

use crate::bout::Difference;

/// Shrinks within the time given. `fails` runs a list.
pub fn shrink(
    list: &[Event],
    time: Duration,
    fails: impl Fn(&[Event]) -> Option<Difference>,
) -> (Vec<Event>, Difference) {
    let found = fails(list).expect("the list fails");
    let mut list = list.to_vec();
    if fails(&list[..=found.place]).is_some() {
        list.truncate(found.place + 1);
    }
    let until = Instant::now() + time;
    let mut part = list.len().div_ceil(2);
    while part > 1 && Instant::now() < until {
        leave_out(&mut list, part, until, &fails);
        part /= 2;
    }
    loop {
        let before = list.len();
        leave_out(&mut list, 1, until, &fails);
        leave_out_two(&mut list, until, &fails);
        if list.len() == before || Instant::now() >= until {
            break;
        }
    }
    shorten_bytes(&mut list, until, &fails);
    let difference = fails(&list).unwrap_or(found);
    (list, difference)
}

/// Tries to leave out each part of so many events.
fn leave_out(
    list: &mut Vec<Event>,
    part: usize,
    until: Instant,
    fails: &impl Fn(&[Event]) -> Option<Difference>,
) {
    let mut end = list.len();
    while end > 0 && Instant::now() < until {
        let start = end.saturating_sub(part);
        let shorter = [&list[..start], &list[end..]].concat();
        if fails(&shorter).is_some() {
            *list = shorter;
        }
        end = start.min(list.len());
    }
}

/// Tries to leave out any two events together, as an opening and its cut. Only where the list is
/// short: the tries grow with the square of its length.
fn leave_out_two(
    list: &mut Vec<Event>,
    until: Instant,
    fails: &impl Fn(&[Event]) -> Option<Difference>,
) {
    const SHORT: usize = 100;
    if list.len() > SHORT {
        return;
    }
    for second in (1..list.len()).rev() {
        if second >= list.len() || Instant::now() >= until {
            continue;
        }
        let without = |first: usize| {
            let parts = [
                &list[..first],
                &list[first + 1..second],
                &list[second + 1..],
            ];
            parts.concat()
        };
        let mut shorter = (0..second).rev().map(without);
        if let Some(shorter) = shorter.find(|list| fails(list).is_some()) {
            *list = shorter;
        }
    }
}

/// Tries to show fewer bytes in each delivery.
fn shorten_bytes(
    list: &mut Vec<Event>,
    until: Instant,
    fails: &impl Fn(&[Event]) -> Option<Difference>,
) {
    for place in 0..list.len() {
        let Event::Deliver { bytes, .. } = &list[place] else {
            continue;
        };
        let length = bytes.len();
        for fewer in [0, 1, 15, 16, 17, 24, length / 2, length.saturating_sub(1)] {
            if fewer >= length || Instant::now() >= until {
                continue;
            }
            let mut shorter = list.clone();
            if let Event::Deliver { bytes, .. } = &mut shorter[place] {
                bytes.truncate(fewer);
            }
            if fails(&shorter).is_some() {
                *list = shorter;
                break;
            }
        }
    }
}
