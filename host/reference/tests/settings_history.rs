//! Demand 3 with watches and allowed commands: random lists, their canonical histories and journals.

mod random;

use random::Random;
use reference::compose::{
    answer, answer_beside, block, clock, cut, deliver, message, patterns, watch,
};
use reference::history::canonical;
use reference::journal::{Keeping, Kept};
use reference::lock_model::LockModel;
use reference::verifier::{judge, Verdict};
use reference::{Event, Fresh, Reply, Server, Subject, Watch};

const EVENTS: usize = 120;

/// A server that keeps what it answered.
struct Run {
    server: Server,
    said: Vec<(Reply, Vec<u8>)>,
}

impl Run {
    fn new() -> Run {
        Run {
            server: Server::new(Fresh::BENCH.vendor),
            said: Vec::new(),
        }
    }

    fn event(&mut self, event: &Event) -> Reply {
        let mut out = [0; 2048];
        let reply = self.server.apply(event, &mut out);
        let frames = out[..reply.output as usize].to_vec();
        self.said.push((reply, frames));
        reply
    }

    /// How many outputs have a frame that begins so.
    fn count(&self, begins: &[u8]) -> usize {
        let has =
            |said: &&(Reply, Vec<u8>)| said.1.windows(begins.len()).any(|found| found == begins);
        self.said.iter().filter(has).count()
    }
}

fn limit(random: &mut Random) -> f32 {
    let limits = [-1.0, 0.0, -0.0, 1.0, f32::INFINITY, f32::NAN];
    limits[random.below(limits.len())]
}

fn setting(random: &mut Random) -> Event {
    let session = 1 + random.below(3) as u32;
    match random.below(4) {
        0 => watch(session, Watch::Off),
        1 => watch(session, Watch::above(limit(random))),
        2 => watch(session, Watch::outside(limit(random), limit(random))),
        _ => {
            let lists = [
                &["*IDN?", "READ?"][..],
                &["READ?"],
                &["*IDN?", "READ?", "bad"],
            ];
            patterns(lists[random.below(lists.len())])
        }
    }
}

/// What comes next; `number` is the one that the session expects, most of the time.
fn next(random: &mut Random, number: u32) -> Event {
    let (session, sync) = match random.below(2) {
        0 => (1, 0),
        _ => (2, 2),
    };
    let command = [&b"READ?"[..], b"*IDN? 1", b"*RST"][random.below(3)];
    let question = message(7, random.below(2) as u8, number, command);
    match random.below(12) {
        0..=3 => setting(random),
        4 | 5 => deliver(sync, question),
        6 => deliver(sync, &question[..10]),
        7 | 8 => answer(
            session,
            &block(&[limit(random), limit(random)]),
            random.below(2) as u8,
        ),
        9 => answer_beside(session, &block(&[limit(random)]), 1, question),
        10 => Event::Status {
            status: random.below(256) as u8,
        },
        _ => match random.below(6) {
            0 => cut(9),
            1 => clock(random.below(50) as u64),
            2 => deliver(sync + 1, message(19, 0, 0, b"")),
            3 => deliver(sync, message(8, 0, 0, b"")),
            kind => deliver(sync + 1, message(4, kind as u8 % 2, 0xffff_fefe, b"")),
        },
    }
}

fn opening() -> Vec<Event> {
    let session = |number: u32, sync| {
        vec![
            Event::Open { connection: sync },
            deliver(sync, message(0, 0, 0x0100_4141, b"")),
            Event::Open {
                connection: sync + 1,
            },
            deliver(sync + 1, message(17, 0, number, b"")),
        ]
    };
    [session(1, 0), session(2, 2)].concat()
}

/// A random list; numbers are tried until one is in step.
fn list(seed: u64) -> (Vec<Event>, Run) {
    let mut random = Random(seed);
    let (mut run, mut events) = (Run::new(), opening());
    for event in &events {
        run.event(event);
    }
    for place in 0..EVENTS {
        let number = 0xffff_ff00_u32.wrapping_add(2 * random.below(1 + place / 12) as u32);
        let event = next(&mut random, number);
        run.event(&event);
        events.push(event);
    }
    (events, run)
}

#[test]
fn the_canonical_history_gives_the_same_server_and_answers() {
    let (mut requests, mut errors) = (0, 0);
    for seed in 1..=60 {
        let (events, run) = list(seed);
        let replies: Vec<Reply> = run.said.iter().map(|said| said.0).collect();
        let kept = canonical(events.iter().zip(&replies));
        let mut again = Run::new();
        for (place, event) in &kept {
            again.event(event);
            assert_eq!(again.said.last(), Some(&run.said[*place]), "seed {seed}");
        }
        assert_eq!(again.server, run.server, "seed {seed}");
        requests += run.count(b"HS\x14");
        errors += run.count(b"HS\x03\x80");
    }
    assert!(requests > 20, "{requests} service requests");
    assert!(errors > 20, "{errors} commands not allowed");
}

#[test]
fn the_lock_model_agrees_throughout() {
    for seed in 1..=30 {
        let (events, run) = list(seed);
        let mut model = LockModel::new();
        for (event, (reply, _)) in events.iter().zip(&run.said) {
            model.event(event, reply, &mut Vec::new());
        }
        assert_eq!(model.view(), run.server.lock_view(), "seed {seed}");
    }
}

#[test]
fn its_journal_is_accepted() {
    for seed in 1..=30 {
        let (events, run) = list(seed);
        let mut keeping = Keeping::new(Fresh::BENCH, 1 << 20);
        let mut entries = 0;
        for (event, said) in events.iter().zip(&run.said) {
            let (reply, kept) = keeping.event(event);
            assert_eq!((reply, kept), (said.0, Kept::Written), "seed {seed}");
            entries += u64::from(reply.refusal == 0);
        }
        let verdict = judge(Fresh::BENCH, &keeping.close());
        assert_eq!(verdict, Verdict::Accepted { entries }, "seed {seed}");
    }
}
