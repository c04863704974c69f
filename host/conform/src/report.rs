//! Events, answers and differences in words.

use std::fmt::Write;
use std::time::Duration;

use reference::{Event, Fresh, Refusal, Reply};

use crate::bout::{Bout, Difference, Failed, Pair};
use crate::shrink::shrink;
use crate::watch::Watch;

const SHRINK_TIME: Duration = Duration::from_secs(20);
/// A list of so many events is shown whole; of a longer one the middle of its preparation is left
/// out, and more if that is not enough.
const SHOWN: usize = 80;
/// So many events before and after what is left out of a preparation.
const FEW: usize = 5;

pub fn describe_reply(event: &Event, reply: &Reply) -> String {
    if reply.refusal == Refusal::BadPattern as u64 {
        let (pattern, place) = (reply.pattern, reply.place);
        return format!("refusal 11, pattern {pattern}, place {place}");
    }
    if reply.refusal != 0 {
        return format!("refusal {}", reply.refusal);
    }
    let output = reply.output;
    if reply.withheld != 0 {
        return format!("withheld, {output} bytes of output");
    }
    if !matches!(event, Event::Deliver { .. }) {
        return format!("done, {output} bytes of output");
    }
    let outcome = Reply::OUTCOMES.get(reply.outcome as usize).unwrap_or(&"?");
    let (session, taken, missing) = (reply.session, reply.taken, reply.missing);
    format!(
        "{outcome}, session {session}, {taken} taken, {output} bytes of output, {missing} missing"
    )
}

pub fn describe_event(event: &Event) -> String {
    let short = match event.room() {
        0 if !event.is_lent_a_buffer() => String::new(),
        2048 => String::new(),
        room => format!(" (buffer of {room})"),
    };
    match event {
        Event::Open { connection } => format!("open {connection}"),
        Event::Deliver {
            connection, bytes, ..
        } => format!("deliver on {connection}: {}{short}", describe_bytes(bytes)),
        Event::Cut { connection, .. } => format!("cut {connection}{short}"),
        Event::Clock { milliseconds, .. } => format!("clock {milliseconds}{short}"),
        Event::Answer {
            session,
            payload,
            end,
            shown,
            ..
        } => format!(
            "answer to session {session}, {} bytes, end {end}, beside {}{short}",
            payload.len(),
            describe_bytes(shown)
        ),
        Event::Status { status } => format!("status {status:02x}"),
        Event::Watch { session, watch } => format!("watch of session {session}: {watch:?}"),
        Event::Patterns { text } => format!("patterns \"{}\"", text.escape_ascii()),
    }
}

fn describe_bytes(bytes: &[u8]) -> String {
    let &[b'H', b'S', kind, code, p0, p1, p2, p3, l0, l1, l2, l3, l4, l5, l6, l7, ..] = bytes
    else {
        return hex(bytes);
    };
    let parameter = u32::from_be_bytes([p0, p1, p2, p3]);
    let length = u64::from_be_bytes([l0, l1, l2, l3, l4, l5, l6, l7]);
    let rest = hex(&bytes[16..]);
    format!("type {kind} code {code} parameter {parameter:08x} length {length}, then {rest}")
}

fn hex(bytes: &[u8]) -> String {
    let shown = bytes.len().min(24);
    let dots = if shown < bytes.len() { " .." } else { "" };
    let digits: Vec<String> = bytes[..shown].iter().map(|b| format!("{b:02x}")).collect();
    format!("{} bytes [{}{dots}]", bytes.len(), digits.join(" "))
}

/// The shortest list that can be found in the time, with the left server's answers, and where it
/// goes wrong. What prepares the list is kept.
pub fn shortest(pair: Pair, failed: &Failed) -> String {
    let Failed {
        fresh, ref list, ..
    } = *failed;
    let found = &failed.difference;
    let prepares = if found.place < failed.prepares {
        0
    } else {
        failed.prepares
    };
    let (before, rest) = list.split_at(prepares);
    let mut ready = Bout::new(pair, fresh);
    let prepared = ready.run(before);
    let fails = |list: &[Event]| {
        let mut bout = Bout::new(pair, fresh);
        bout.restart_from(&ready);
        bout.run(list).err()
    };
    if prepared.is_err() || fails(rest).is_none() {
        // It was found otherwise than by running the list, so it is told as it was found.
        return text(pair, fresh, list, prepares, found);
    }
    let (rest, mut difference) = shrink(rest, SHRINK_TIME, fails);
    difference.place += prepares;
    let list = [before, &rest].concat();
    text(pair, fresh, &list, prepares, &difference)
}

fn text(
    pair: Pair,
    fresh: Fresh,
    list: &[Event],
    prepares: usize,
    difference: &Difference,
) -> String {
    let mode = fresh.prefers.name();
    let mut text = format!("vendor {:04x}, prefers {mode}\n", fresh.vendor);
    let left_out = match list.len() {
        0..=SHOWN => 0..0,
        length => FEW..prepares.saturating_sub(FEW).max(length - SHOWN),
    };
    let mut watch = Watch::new(&pair.left, fresh);
    for (place, event) in list.iter().enumerate() {
        let told = match watch.event(event) {
            Ok(reply) => describe_reply(event, &reply),
            Err(what) => what,
        };
        if place == left_out.start && !left_out.is_empty() {
            text += &format!("  .. {} events more ..\n", left_out.len());
        }
        if !left_out.contains(&place) {
            let event = describe_event(event);
            writeln!(text, "  {place}: {event} -> {told}").expect("a string");
        }
    }
    let Difference { place, what } = difference;
    text + &format!("difference at {place}: {what}\n")
}
