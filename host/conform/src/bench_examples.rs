//! The bench examples of 01: the bytes stand here, so that both servers cannot be wrong together.

use reference::event::Frame;
use reference::{Event, Fresh, Mode, Reply};

use crate::bout::{Bout, Difference, Failed, Pair, BENCH};
use crate::messages::{
    answer, answer_beside, clock, deliver, header, lock, message, release, session,
};

/// One event with its outcome and whole output.
struct Example {
    name: &'static str,
    event: Event,
    outcome: u64,
    output: Vec<u8>,
}

/// Examples one after another, from a fresh server that has gone through some events.
struct Conversation {
    fresh: Fresh,
    before: Vec<Event>,
    examples: Vec<Example>,
}

fn frame(to: u8, kind: u8, code: u8, parameter: u32) -> Vec<u8> {
    let mut bytes = vec![to];
    bytes.extend(message(kind, code, parameter, b""));
    bytes
}

fn example(name: &'static str, event: Event, outcome: u64, output: Vec<u8>) -> Example {
    Example {
        name,
        event,
        outcome,
        output,
    }
}

/// Programs A, B and C: sessions 1 to 3 on connections 0 to 5.
fn three() -> Vec<Event> {
    [session(0, 1, 1), session(2, 3, 2), session(4, 5, 3)].concat()
}

fn opening() -> Conversation {
    let open = |connection| Event::Open { connection };
    let initialize = *b"\x48\x53\x00\x00\x01\x00\x41\x41\0\0\0\0\0\0\0\0";
    let opened = b"\x00\x48\x53\x01\x00\x01\x00\x00\x01\0\0\0\0\0\0\0\0".to_vec();
    let join = *b"\x48\x53\x11\x00\x00\x00\x00\x01\0\0\0\0\0\0\0\0";
    let joined = b"\x01\x48\x53\x12\x00\x00\x00\x41\x41\0\0\0\0\0\0\0\0".to_vec();
    let acted = Reply::ACTED_ON;
    Conversation {
        fresh: BENCH,
        before: vec![open(0), open(1)],
        examples: vec![
            example("Initialize", deliver(0, initialize), acted, opened),
            example("AsyncInitialize", deliver(1, join), acted, joined),
        ],
    }
}

fn reading() -> Conversation {
    let fifteen = deliver(0, &header(7, 0, 0, 0)[..15]);
    let long = |length| deliver(0, message(7, 0, 0xffff_ff00, &vec![b'x'; length]));
    let of_type = |kind| deliver(0, header(kind, 0, 0, 0));
    let mut wrong = header(7, 0, 0, 0);
    wrong[1] = b'T';
    let (acted, error) = (Reply::ACTED_ON, Reply::ERROR_SENT);
    let fatal = [frame(2, 2, 1, 0), frame(3, 2, 1, 0)].concat();
    Conversation {
        fresh: BENCH,
        before: three(),
        examples: vec![
            example("15 bytes", fifteen, Reply::MORE_NEEDED, vec![]),
            example("length 1,024", long(1024), acted, vec![]),
            example("type 39", of_type(39), error, frame(0, 3, 1, 0)),
            example("type 128", of_type(128), error, frame(0, 3, 3, 0)),
            example("length 1,025", long(1025), error, frame(0, 3, 4, 0)),
            example("HT", deliver(2, wrong), Reply::CLOSED, fatal),
        ],
    }
}

fn data(connection: u32) -> Event {
    deliver(connection, message(6, 0, 0xffff_ff00, b"x"))
}

/// An answer to a lock message.
fn told(name: &'static str, event: Event, connection: u8, code: u8) -> Example {
    example(name, event, Reply::ACTED_ON, frame(connection, 5, code, 0))
}

fn exclusive() -> Conversation {
    Conversation {
        fresh: BENCH,
        before: three(),
        examples: vec![
            told("A exclusive", lock(1, b"", 0), 1, 1),
            told("B exclusive", lock(3, b"", 0), 3, 0),
            example("B's Data", data(2), Reply::HELD, vec![]),
        ],
    }
}

fn shared() -> Conversation {
    Conversation {
        fresh: BENCH,
        before: three(),
        examples: vec![
            told("A cal", lock(1, b"cal", 0), 1, 1),
            told("B cal", lock(3, b"cal", 0), 3, 1),
            told("C Cal", lock(5, b"Cal", 0), 5, 0),
            told("A exclusive too", lock(1, b"", 0), 1, 1),
            example("B is then held", data(2), Reply::HELD, vec![]),
            told("first release", release(1), 1, 1),
            told("second release", release(1), 1, 2),
            told("third release", release(1), 1, 3),
        ],
    }
}

fn waiting() -> Conversation {
    let waits = lock(3, b"", 500);
    Conversation {
        fresh: BENCH,
        before: [three(), vec![clock(1000), lock(1, b"", 0)]].concat(),
        examples: vec![
            example("B waits 500", waits, Reply::ACTED_ON, vec![]),
            example("1,499", clock(1499), 0, vec![]),
            example("1,500", clock(1500), 0, frame(3, 5, 0, 0)),
        ],
    }
}

fn status() -> Conversation {
    let question = deliver(0, message(7, 0, 0xffff_ff00, b"*IDN?"));
    let then = vec![Event::Status { status: 0x41 }, question, answer(1, b"x", 1)];
    let query = deliver(1, header(21, 0, 0xffff_ff00, 0));
    let response = frame(1, 22, 0x51, 0);
    Conversation {
        fresh: BENCH,
        before: [three(), then].concat(),
        examples: vec![example("status 51", query, Reply::ACTED_ON, response)],
    }
}

/// a server that prefers overlap mode counts its answers; a clear may ask for the other mode.
fn overlap() -> Conversation {
    let acted = Reply::ACTED_ON;
    let told = |number: u32| {
        let mut bytes = vec![0];
        bytes.extend(message(7, 0, number, b"x"));
        bytes
    };
    let query = |number| deliver(1, header(21, 0, number, 0));
    let question = deliver(0, message(7, 0, 0xffff_ff00, b"?"));
    Conversation {
        fresh: Fresh {
            prefers: Mode::Overlap,
            ..BENCH
        },
        before: vec![Event::Open { connection: 0 }, Event::Open { connection: 1 }],
        examples: vec![
            example(
                "overlap preferred",
                deliver(0, header(0, 0, 0x0100_4141, 0)),
                acted,
                frame(0, 1, 1, 0x0100_0001),
            ),
            example(
                "joined",
                deliver(1, header(17, 0, 1, 0)),
                acted,
                frame(1, 18, 0, 0x4141),
            ),
            example("nothing sent", query(0), acted, frame(1, 22, 0, 0)),
            example("first answer", answer(1, b"x", 1), 0, told(0xffff_ff00)),
            example("second answer", answer(1, b"x", 1), 0, told(0xffff_ff02)),
            example(
                "one is left",
                query(0xffff_ff00),
                acted,
                frame(1, 22, 16, 0),
            ),
            example(
                "none is left",
                query(0xffff_ff02),
                acted,
                frame(1, 22, 0, 0),
            ),
            example(
                "clear",
                deliver(1, header(19, 0, 0, 0)),
                acted,
                frame(1, 23, 1, 0),
            ),
            example(
                "synchronized asked for",
                deliver(0, header(8, 2, 0, 0)),
                acted,
                frame(0, 9, 0, 0),
            ),
            example("a question", question, acted, vec![]),
            example("its answer", answer(1, b"x", 1), 0, told(0xffff_ff00)),
            example(
                "not delivered",
                query(0xffff_ff00),
                acted,
                frame(1, 22, 16, 0),
            ),
        ],
    }
}

/// too large messages count, but not in a clear; a number repeated is Error 0.
fn numbers() -> Conversation {
    let (acted, error) = (Reply::ACTED_ON, Reply::ERROR_SENT);
    let data = |number| deliver(0, message(6, 0, number, b"x"));
    let too_large = |number| deliver(0, header(6, 0, number, 1025));
    let payload = || deliver(0, vec![0; 1025]);
    let told = |code| frame(0, 3, code, 0);
    let done = deliver(0, header(8, 0, 0, 0));
    Conversation {
        fresh: BENCH,
        before: [session(0, 1, 1), vec![deliver(1, header(19, 0, 0, 0))]].concat(),
        examples: vec![
            example(
                "too large in a clear",
                too_large(0xffff_ff00),
                error,
                told(4),
            ),
            example("its payload", payload(), Reply::SKIPPED, vec![]),
            example("the clear ends", done, acted, frame(0, 9, 0, 0)),
            example("the first number", data(0xffff_ff00), acted, vec![]),
            example("repeated", data(0xffff_ff00), error, told(0)),
            example("one missed", data(0xffff_ff04), error, told(0)),
            example("too large in step", too_large(0xffff_ff02), error, told(4)),
            example("its payload too", payload(), Reply::SKIPPED, vec![]),
            example("the third", data(0xffff_ff04), acted, vec![]),
        ],
    }
}

/// AsyncInterrupted and Interrupted on connections 1 and 0.
fn interrupted(number: u32) -> Vec<u8> {
    [frame(1, 14, 0, number), frame(0, 13, 0, number)].concat()
}

/// An answer of session 1, sent.
fn sent(kind: u8, number: u32) -> Vec<u8> {
    [vec![0], message(kind, 0, number, b"x")].concat()
}

/// 003's appendix A, figures 2 to 5: a second query that comes too early.
fn figures() -> [Conversation; 4] {
    const ONE: u32 = 0xffff_ff00;
    const TWO: u32 = 0xffff_ff02;
    let acted = Reply::ACTED_ON;
    let second = message(7, 0, TWO, b"?");
    let asks = || [session(0, 1, 1), vec![deliver(0, message(7, 0, ONE, b"?"))]].concat();
    let ends = || answer(1, b"x", 1);
    let beside = || answer_beside(1, b"x", 1, &second[..]);
    let asks_again = || deliver(0, &second[..]);
    let conversation = |examples| Conversation {
        fresh: BENCH,
        before: asks(),
        examples,
    };
    [
        conversation(vec![
            example("figure 2, the answer is sent", ends(), 0, sent(7, ONE)),
            example("figure 2, not read", asks_again(), acted, interrupted(TWO)),
            example("figure 2, the second answer", ends(), 0, sent(7, TWO)),
        ]),
        conversation(vec![
            example("figure 3, withheld", beside(), 0, interrupted(TWO)),
            example("figure 3, the second query", asks_again(), acted, vec![]),
            example("figure 3, the second answer", ends(), 0, sent(7, TWO)),
        ]),
        conversation(vec![
            example("figure 4, a part", answer(1, b"x", 0), 0, sent(6, ONE)),
            example("figure 4, the end withheld", beside(), 0, interrupted(TWO)),
            example("figure 4, the second query", asks_again(), acted, vec![]),
            example("figure 4, the second answer", ends(), 0, sent(7, TWO)),
        ]),
        conversation(vec![
            example("figure 5, still on the way", ends(), 0, sent(7, ONE)),
            example("figure 5, the race", asks_again(), acted, interrupted(TWO)),
        ]),
    ]
}

/// Runs all; returns the events run.
pub fn check(pair: Pair) -> Result<usize, Failed> {
    let all = [
        opening(),
        reading(),
        exclusive(),
        shared(),
        waiting(),
        status(),
        overlap(),
        numbers(),
    ];
    let mut count = 0;
    for conversation in all.into_iter().chain(figures()) {
        count += conversation.check(pair)?;
    }
    Ok(count)
}

impl Conversation {
    fn check(&self, pair: Pair) -> Result<usize, Failed> {
        let events = self.examples.iter().map(|example| example.event.clone());
        let events: Vec<Event> = events.collect();
        let failed =
            |found| Failed::after(&self.before, &events, found, "examples").from(self.fresh);
        let mut bout = Bout::new(pair, self.fresh);
        let before = bout.run(&self.before);
        before.map_err(|found| {
            Failed::after(&[], &self.before, found, "examples").from(self.fresh)
        })?;
        for (place, example) in self.examples.iter().enumerate() {
            example.check(&mut bout).map_err(|what| {
                let what = format!("bench example \"{}\": {what}", example.name);
                failed(Difference { place, what })
            })?;
        }
        let place = events.len() - 1;
        let ended = bout.end();
        ended.map_err(|what| failed(Difference { place, what }))?;
        Ok(self.before.len() + events.len())
    }
}

impl Example {
    fn check(&self, bout: &mut Bout) -> Result<(), String> {
        bout.event(&self.event)?;
        for trial in [&bout.left, &bout.right] {
            let (reply, output) = trial.watch.log.last();
            if (reply.outcome, output) != (self.outcome, &self.output) {
                let frames: Option<Vec<Frame>> = reference::event::frames(output);
                return Err(format!("outcome {}, frames {frames:02x?}", reply.outcome));
            }
        }
        Ok(())
    }
}
