//! Patterns and commands of every shape, good and damaged at every byte; lists of every length, set again and
//! refused; and Error 128 beside the other checks.

use reference::compose::patterns;
use reference::limits::{PATTERN, PATTERNS};
use reference::Event;

use crate::bout::{Bout, Failed, Pair, BENCH};
use crate::messages::{
    answer, deliver, header, lock, message, message_id, release, release_after, session,
};
use crate::numbers::{mix, Numbers};
use crate::scpi::{spell, BYTES};

/// Patterns of every shape, some from instruments' manuals.
const SHAPES: [&str; 18] = [
    "A",
    "Ab?",
    "*A",
    "*IDN?",
    "*ESE",
    "A:B",
    "A[:B]",
    "A[[:B]]",
    "A[:B]:C?",
    "A[:B][:B]",
    "A[:B[:C]:D]?",
    "A[:Bb:Cc][:Bb]:Cc",
    "A[:B[:C[:D[:E[:F[:G[:H[:I]]]]]]]]?",
    "A[[[[[[[[:B]]]]]]]]:C",
    "MEASure[:VOLTage[:DC]]?",
    "SYSTem:ERRor[:NEXT]?",
    "SENSe[:VOLTage[:DC]]:RANGe[:UPPer]",
    "TRIGger[:SEQuence]:SOURce?",
];

/// Commands tried of each shape.
const SPELLINGS: u64 = 12;

/// Sessions 1 and 2; session 1's next message is its first.
fn two() -> Vec<Event> {
    [session(0, 1, 1), session(2, 3, 2)].concat()
}

fn commands(payload: &[u8]) -> Event {
    deliver(0, message(7, 0, message_id(0), payload))
}

fn one(pattern: &[u8]) -> Event {
    patterns(&[pattern])
}

/// A text with each byte changed, left out, and one put in before it, and cut off everywhere.
fn damaged(text: &[u8]) -> Vec<Vec<u8>> {
    let mut all = Vec::new();
    for place in 0..=text.len() {
        let (before, behind) = text.split_at(place);
        all.push(before.to_vec());
        all.extend(BYTES.map(|byte| [before, &[byte], behind].concat()));
        if let [_, rest @ ..] = behind {
            all.push([before, rest].concat());
            all.extend(BYTES.map(|byte| [before, &[byte], rest].concat()));
        }
    }
    all
}

/// Long and wide patterns, around the greatest length and depth.
fn large() -> Vec<Vec<u8>> {
    let mut all: Vec<Vec<u8>> = (120..=140).map(|length| vec![b'A'; length]).collect();
    let rows = [":A", "[:A]", "[[:A]]", "[:A:A]", "[:A[:A]]", "[:a"];
    for row in rows {
        all.extend((20..70).map(|times| format!("A{}", row.repeat(times)).into_bytes()));
    }
    for depth in 7..=10 {
        let (open, close) = ("[".repeat(depth), "]".repeat(depth));
        all.push(format!("A{open}:B{close}").into_bytes());
        all.push(format!("A{open}:B{close}{open}:C{close}?").into_bytes());
        all.push(format!("A{}:B", "[:B".repeat(depth)).into_bytes());
    }
    for ends in ["?", "]", ":", "[:B]", "b"] {
        all.extend((PATTERN - 6..=PATTERN + 1).map(|length| {
            let mut text = vec![b'A'; length];
            text.extend(ends.bytes());
            text
        }));
    }
    all
}

/// Every shape and its damaged forms as a list of one, and a command that shows what was set.
fn grammar() -> Vec<Vec<Event>> {
    let shapes = SHAPES.iter().flat_map(|shape| damaged(shape.as_bytes()));
    let texts = shapes.chain(large());
    let shown = |text: Vec<u8>| vec![one(&text), commands(b"A:B"), commands(b"A")];
    texts.map(shown).collect()
}

/// Commands that a shape spells, each damaged at every byte.
fn spelling() -> Vec<Vec<Event>> {
    let mut lists = Vec::new();
    for (place, shape) in (0..).zip(SHAPES) {
        let set = one(shape.as_bytes());
        for number in 0..SPELLINGS {
            let mut numbers = Numbers::new(mix(place * SPELLINGS + number));
            let command = spell(&mut numbers, shape.as_bytes());
            lists.push(vec![set.clone(), commands(&command)]);
            if number < 2 {
                let tried = damaged(&command).into_iter();
                lists.extend(tried.map(|command| vec![set.clone(), commands(&command)]));
            }
        }
    }
    lists
}

/// Many brackets in a row, which a search by trial would not get through.
fn wide() -> Vec<Vec<Event>> {
    let row = |times: usize| format!("A{}", "[:A]".repeat(times)).into_bytes();
    let command = |words: usize| format!("A{}", ":A".repeat(words)).into_bytes();
    let words = [0, 1, 30, 31, 32, 40, 300];
    let all = words.map(|words| vec![one(&row(31)), commands(&command(words))]);
    let last = [command(31), b":B".to_vec()].concat();
    [&all[..], &[vec![one(&row(31)), commands(&last)]]].concat()
}

/// What ends a command, and what does not.
fn ends() -> Vec<Vec<Event>> {
    let set = patterns(&["A", "A:B?", "*C"]);
    let row = |payload: Vec<u8>| vec![set.clone(), commands(&payload)];
    let mut lists: Vec<_> = (0..=255)
        .flat_map(|byte| [vec![b'A', byte], vec![byte, b'A'], vec![b'A', byte, b'A']])
        .map(row)
        .collect();
    let whole = [
        "", " ", "\n", " A", "A \n", "A\n ", ":A", "A:", "A:B? :", "*c 1", "*", "?",
    ];
    lists.extend(whole.map(|payload| row(payload.into())));
    lists.push(row([b"A ".to_vec(), vec![b'?'; 1022]].concat()));
    lists.push(row(vec![b'A'; 1024]));
    lists
}

/// So many different patterns: A, B, .. AA, AB, ..
fn many(count: usize) -> Vec<Vec<u8>> {
    let letter = |number: usize| b'A' + (number % 26) as u8;
    let name = |number: usize| match number / 26 {
        0 => vec![letter(number)],
        _ => vec![b'X', letter(number)],
    };
    (0..count).map(name).collect()
}

/// Lists of every length, with each pattern matched and each bad; last newlines there and not.
fn lengths() -> Vec<Vec<Event>> {
    let text = |text: &[u8]| Event::Patterns {
        text: text.to_vec(),
    };
    let mut lists = Vec::new();
    for count in 0..=PATTERNS + 2 {
        let list = many(count);
        let Event::Patterns { text: whole } = patterns(&list) else {
            continue;
        };
        let unended = whole.strip_suffix(b"\n").unwrap_or(&whole);
        let last = list.last().cloned().unwrap_or_default();
        lists.push(vec![text(&whole), commands(&last)]);
        lists.push(vec![text(unended), commands(&last)]);
        lists.push(vec![text(&[&whole[..], b"\n"].concat()), commands(&last)]);
        for place in 0..count {
            let mut bad = list.clone();
            bad[place].push(b'1');
            lists.push(vec![patterns(&list), commands(&list[place])]);
            lists.push(vec![patterns(&bad), commands(&list[place])]);
        }
    }
    lists
}

/// A list set again, the second refused or not; what the first or the second allows.
fn set_again() -> Vec<Vec<Event>> {
    let texts: [&[u8]; 9] = [
        b"A\n", b"B\n", b"", b"\n", b"A\nb\n", b"B\nA[:B", b"A\n\n", b"*\nB", b"B\nA\n",
    ];
    let many = patterns(&many(PATTERNS + 1));
    let set = |text: &[u8]| Event::Patterns {
        text: text.to_vec(),
    };
    let all: Vec<Event> = texts.iter().map(|text| set(text)).chain([many]).collect();
    let mut lists = Vec::new();
    for first in &all {
        for second in &all {
            for command in [b"A", b"B"] {
                lists.push(vec![first.clone(), second.clone(), commands(command)]);
            }
        }
    }
    lists
}

/// Before and behind Error 128: other checks, the number expected, RMT-delivered, releases, other messages.
fn beside() -> Vec<Vec<Event>> {
    let set = patterns(&["A", "A?"]);
    let rows = [beside_checks(), beside_answers()].concat();
    let after = |first: &Event, row: &Vec<Event>| [&[first.clone()], &row[..]].concat();
    let none = patterns::<&str>(&[]);
    let listed = rows.iter().map(|row| after(&set, row));
    let emptied = rows.iter().map(|row| after(&none, row));
    listed.chain(emptied).chain(rows.iter().cloned()).collect()
}

fn send(kind: u8, code: u8, number: u32, payload: &[u8]) -> Event {
    deliver(0, message(kind, code, message_id(number), payload))
}

fn good(number: u32) -> Event {
    send(7, 0, number, b"A?")
}

fn bad(code: u8, number: u32) -> Event {
    send(7, code, number, b"B")
}

/// Commands beside what the checks before the list's ask.
fn beside_checks() -> Vec<Vec<Event>> {
    let clear = [deliver(1, header(19, 0, 0, 0)), bad(0, 0)];
    let cleared = [deliver(0, header(8, 0, 0, 0)), bad(0, 0), good(1)];
    vec![
        vec![bad(0, 0), bad(0, 0), bad(1, 1), good(2)],
        vec![bad(2, 0), bad(255, 1), bad(0, 2)],
        vec![bad(0, 1), bad(2, 1), good(0)],
        vec![deliver(0, header(7, 0, message_id(0), 1025))],
        vec![lock(3, b"", 0), bad(0, 0), release(3), bad(0, 0)],
        [&clear[..], &cleared].concat(),
        vec![
            deliver(0, &message(7, 0, message_id(0), b"BB")[..17]),
            bad(0, 0),
        ],
        vec![deliver(2, message(7, 0, message_id(0), b"B")), good(0)],
    ]
}

/// Commands beside other messages, answers and a release that stands.
fn beside_answers() -> Vec<Vec<Event>> {
    let query = deliver(1, header(21, 0, 0, 0));
    let answered = answer(1, b"1", 1);
    let asked = |code| {
        vec![
            good(0),
            answered.clone(),
            bad(code, 1),
            query.clone(),
            send(7, code, 2, b"A"),
        ]
    };
    vec![
        vec![
            send(6, 0, 0, b"B"),
            send(12, 0, 1, b""),
            send(12, 0, 2, b"B"),
            bad(0, 3),
        ],
        vec![send(6, 0, 0, b"B"), good(1), answered.clone(), good(2)],
        asked(1),
        asked(0),
        vec![good(0), bad(0, 1), answered.clone()],
        vec![bad(0, 0), answered.clone()],
        vec![
            lock(1, b"", 0),
            release_after(1, message_id(0)),
            bad(0, 0),
            lock(3, b"", 9),
        ],
    ]
}

/// The list outlives sessions and clears, and is there for sessions to come.
fn lasting() -> Vec<Event> {
    let bad = |connection| deliver(connection, message(7, 0, message_id(0), b"B"));
    let mut list = vec![patterns(&["A"])];
    list.extend(session(4, 5, 3));
    list.extend([bad(4), deliver(5, header(19, 0, 0, 0))]);
    list.extend([deliver(4, header(8, 1, 0, 0)), bad(4)]);
    list.push(crate::messages::cut(4));
    list.extend(session(4, 5, 4));
    list.push(bad(4));
    list
}

fn lists() -> Vec<Vec<Event>> {
    let mut all = [grammar(), spelling(), wide(), ends()].concat();
    all.extend([lengths(), set_again(), beside()].concat());
    all.push(lasting());
    all
}

/// Returns the events run.
pub fn check(pair: Pair) -> Result<usize, Failed> {
    let setup = two();
    let mut ready = Bout::new(pair, BENCH);
    let ran = ready.run(&setup);
    ran.map_err(|found| Failed::after(&[], &setup, found, "commands"))?;
    let mut bout = Bout::new(pair, BENCH);
    let mut count = setup.len();
    for list in lists() {
        bout.restart_from(&ready);
        let ran = bout.run(&list);
        ran.map_err(|found| Failed::after(&setup, &list, found, "commands"))?;
        count += list.len();
    }
    Ok(count)
}

#[cfg(test)]
mod tests {
    use super::{lists, spelling, two, SHAPES};
    use crate::bout::BENCH;
    use reference::{Event, Reply, Server, Subject};

    fn replies(list: &[Event]) -> Vec<Reply> {
        let mut server = <Server as Subject>::new(BENCH);
        let mut out = [0; 2048];
        let mut told = |event: &Event| server.apply(event, &mut out[..event.room()]);
        let before = two().len();
        let all = two().into_iter().chain(list.to_vec());
        let replies = all.map(|event| told(&event)).skip(before);
        replies.collect()
    }

    /// Both answers are common, and bad places are everywhere.
    #[test]
    fn lists_come_to_both() {
        let (mut acted, mut refused, mut places) = (0, 0, [0; 129]);
        for list in lists() {
            for reply in replies(&list) {
                acted += usize::from(reply.outcome == Reply::ACTED_ON);
                refused += usize::from(reply.outcome == Reply::ERROR_SENT);
                places[reply.place as usize] += usize::from(reply.refusal == 11);
            }
        }
        assert!(acted > 1_000 && refused > 5_000, "{acted} {refused}");
        assert!(places[..35].iter().all(|count| *count > 3), "{places:?}");
        assert!(places[128] > 10, "{places:?}");
    }

    #[test]
    fn every_shape_is_a_pattern_and_is_spelled() {
        let good = |list: &&Vec<Event>| replies(list)[1].outcome == Reply::ACTED_ON;
        let spelled = spelling();
        assert!(spelled.iter().all(|list| replies(list)[0].refusal == 0));
        assert!(spelled.iter().filter(good).count() >= 12 * SHAPES.len());
    }
}
