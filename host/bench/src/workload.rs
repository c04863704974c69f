//! What is run: prepared events over prepared sessions, the same for both sides.

use reference::limits::{LOCK_STRING, SESSIONS};
use reference::wire::kind;

use crate::contender::Sum;
use crate::draw::Draw;
use crate::script::{Part, Script, Step, ALLOWED, NOT_ALLOWED, SHORT_STRING};

pub struct Workload {
    pub name: String,
    /// Sessions 1 to so many, on connections 0 and 1, 2 and 3, ...
    pub sessions: u32,
    /// Run once before the time is taken.
    pub before: Vec<Step>,
    pub steps: Vec<Step>,
    pub bytes: Vec<u8>,
    /// The output buffer is cleared before each event.
    pub clear: bool,
    /// Every event has its entry in a journal.
    pub kept: bool,
}

/// A workload that is made when it is run.
pub struct Plan {
    pub name: String,
    /// The output buffer is cleared before each event.
    pub clear: bool,
    /// Every event has its entry in a journal.
    pub kept: bool,
    make: Make,
}

type Make = fn(&mut Author);

impl Plan {
    fn new(name: &str, make: Make) -> Plan {
        Plan {
            name: name.into(),
            clear: false,
            kept: false,
            make,
        }
    }

    /// With the first so many of its events.
    pub fn make(&self, events: usize) -> Workload {
        let mut author = Author {
            events,
            script: Script::new(),
            before: Vec::new(),
        };
        (self.make)(&mut author);
        let Script {
            mut steps, bytes, ..
        } = author.script;
        steps.truncate(events);
        Workload {
            name: self.name.clone(),
            sessions: ALL,
            before: author.before,
            steps,
            bytes,
            clear: self.clear,
            kept: self.kept,
        }
    }
}

/// All that sessions can be open at once.
const ALL: u32 = SESSIONS as u32;
/// Some of the others.
const FEW: u32 = 8;

/// Rounds of the mix: with six deliveries each, 02's 1,200,000.
const ROUNDS: usize = 200_000;
/// Events of a workload beside the mix.
const EVENTS: usize = 400_000;

/// The kinds of the mix, even parts of it.
#[derive(Clone, Copy, PartialEq, Eq)]
enum Kind {
    Data,
    DataEnd,
    Status,
    Piece,
    Request,
    Release,
}

const KINDS: [Kind; 6] = [
    Kind::Data,
    Kind::DataEnd,
    Kind::Status,
    Kind::Piece,
    Kind::Request,
    Kind::Release,
];

/// One delivery of each kind: of which session, and what is drawn beside it.
struct Round {
    order: [Kind; 6],
    data: u32,
    data_end: u32,
    status: (u32, Part),
    piece: (u32, Part),
    holder: u32,
    request: Part,
}

/// Writes a workload.
struct Author {
    /// No more events than these are wanted.
    events: usize,
    script: Script,
    before: Vec<Step>,
}

impl Author {
    /// 02's mix: 1,200,000 deliveries in even parts Data, DataEND, status queries, lock requests,
    /// releases and pieces of messages, each of a session drawn from so many. Only a release is of the
    /// session that holds the lock. Data and DataEND `between` a request and its release are mostly held;
    /// without them every whole message acts. Of the kinds only those `wanted` are sent.
    fn mix(&mut self, sessions: u32, between: bool, wanted: &[Kind]) {
        let mut draw = Draw::new();
        for _ in 0..ROUNDS.min(self.events) {
            let round = self.draw_round(&mut draw, sessions, between);
            self.round(&round, wanted);
        }
    }

    /// The mix with a list of 32 patterns set, which allows its commands.
    fn listed_mix(&mut self) {
        self.script.allow();
        self.begin();
        self.mix(ALL, false, &KINDS);
    }

    /// The mix with a watch over the readings of every session.
    fn watched_mix(&mut self) {
        (0..ALL).for_each(|session| self.script.watch(session));
        self.begin();
        self.mix(ALL, false, &KINDS);
    }

    /// Entries read, one of them after another.
    fn reads(&mut self, sum: Sum) {
        let mut draw = Draw::new();
        for _ in 0..self.count() {
            let entry = draw.pick(&self.script.entries);
            self.script.read(entry, sum);
        }
    }

    fn draw_round(&self, draw: &mut Draw, sessions: u32, between: bool) -> Round {
        let mut order = KINDS;
        loop {
            draw.shuffle(&mut order);
            if orderly(&order, between) {
                break;
            }
        }
        let script = &self.script;
        Round {
            order,
            holder: draw.below(sessions),
            request: draw.pick(&[script.exclusive, script.shared]),
            data: draw.below(sessions),
            data_end: draw.below(sessions),
            status: (draw.below(sessions), draw.pick(&script.status)),
            piece: (draw.below(sessions), draw.pick(&script.pieces)),
        }
    }

    fn round(&mut self, round: &Round, wanted: &[Kind]) {
        let script = &mut self.script;
        let mut locked = false;
        let message = |script: &mut Script, session: u32, kind: u8, locked: bool| {
            if locked && session != round.holder {
                script.held(session, kind);
            } else {
                script.message(session, kind);
            }
        };
        for kind in round.order.iter().filter(|kind| wanted.contains(kind)) {
            match kind {
                Kind::Data => message(script, round.data, kind::DATA, locked),
                Kind::DataEnd => message(script, round.data_end, kind::DATA_END, locked),
                Kind::Status => script.asynchronous(round.status.0, round.status.1),
                Kind::Piece => script.synchronous(round.piece.0, round.piece.1),
                Kind::Request => {
                    script.asynchronous(round.holder, round.request);
                    locked = true;
                }
                Kind::Release => {
                    script.release(round.holder);
                    locked = false;
                }
            }
        }
    }

    /// The mix with every round alike and the sessions in turn: what it costs once a processor has
    /// learnt the order.
    fn in_turn(&mut self) {
        for round in 0..ROUNDS.min(self.events) {
            let session = round as u32 % ALL;
            let script = &mut self.script;
            let request = [script.exclusive, script.shared][round / SESSIONS % 2];
            script.message(session, kind::DATA);
            script.message(session, kind::DATA_END);
            script.asynchronous(session, script.status[0]);
            script.synchronous(session, script.pieces[round % 3]);
            script.asynchronous(session, request);
            script.release(session);
        }
    }

    fn count(&self) -> usize {
        EVENTS.min(self.events)
    }

    /// What was written so far is run before the time is taken.
    fn begin(&mut self) {
        self.before = std::mem::take(&mut self.script.steps);
    }

    /// Data and DataEND of those who have no access, while the first session holds the lock.
    fn held(&mut self) {
        let mut draw = Draw::new();
        self.script.asynchronous(0, self.script.exclusive);
        self.begin();
        for _ in 0..self.count() {
            let kind = draw.pick(&[kind::DATA, kind::DATA_END]);
            self.script.held(1 + draw.below(ALL - 1), kind);
        }
    }

    /// Of so many sessions one holds and all others wait; each release grants the next one, and who
    /// released asks again. `asks` is a session's request.
    fn storm(&mut self, sessions: u32, asks: fn(&Script, u32) -> Part) {
        let mut line = Draw::new().shuffled(sessions);
        for session in &line {
            self.script
                .asynchronous(*session, asks(&self.script, *session));
        }
        self.begin();
        while self.script.steps.len() < self.count() {
            let first = line[0];
            self.script.release(first);
            self.script.asynchronous(first, asks(&self.script, first));
            line.rotate_left(1);
        }
    }

    /// The first session shares with its string; it takes and releases the exclusive lock over and over,
    /// and of all others, who wait, nobody can be granted anything.
    fn in_vain(&mut self, asks: fn(&Script, u32) -> Part) {
        self.script.asynchronous(0, self.script.shared);
        self.script.asynchronous(0, self.script.exclusive);
        for other in Draw::new().shuffled(ALL - 1) {
            let asked = asks(&self.script, 1 + other);
            self.script.asynchronous(1 + other, asked);
        }
        self.begin();
        while self.script.steps.len() < self.count() {
            self.script.release(0);
            self.script.asynchronous(0, self.script.exclusive);
        }
    }

    /// The mix without lock messages while the first session holds the exclusive lock and so many others
    /// wait for it: Data and DataEND of the holder, status queries and pieces of any session.
    fn beside_waiting(&mut self, others: u32) {
        let mut draw = Draw::new();
        self.script.asynchronous(0, self.script.exclusive);
        for other in 1..=others {
            self.script.asynchronous(other, self.script.wait);
        }
        self.begin();
        for _ in 0..self.count() {
            let (status, piece) = (
                draw.pick(&self.script.status),
                draw.pick(&self.script.pieces),
            );
            let session = draw.below(ALL);
            match draw.pick(&[Kind::Data, Kind::DataEnd, Kind::Status, Kind::Piece]) {
                Kind::Data => self.script.message(0, kind::DATA),
                Kind::DataEnd => self.script.message(0, kind::DATA_END),
                Kind::Status => self.script.asynchronous(session, status),
                _ => self.script.synchronous(session, piece),
            }
        }
    }

    /// The answer to one that has asked, then DataEND of a session drawn at random.
    fn answers(&mut self) {
        let mut draw = Draw::new();
        let mut asked: Vec<u32> = (0..ALL).collect();
        for asks in &asked {
            self.script.message(*asks, kind::DATA_END);
        }
        self.begin();
        while self.script.steps.len() < self.count() {
            let answered = asked.swap_remove(draw.below(asked.len() as u32) as usize);
            self.script.answer(answered);
            let asks = draw.below(ALL);
            self.script.message(asks, kind::DATA_END);
            if !asked.contains(&asks) {
                asked.push(asks);
            }
        }
    }

    /// DataEND with these commands, of sessions drawn at random, with the list of allowed commands set or not.
    fn commands(&mut self, commands: &[&'static [u8]], listed: bool) {
        let mut draw = Draw::new();
        if listed {
            self.script.allow();
        }
        self.begin();
        for _ in 0..self.count() {
            let command = draw.pick(commands);
            let session = draw.below(ALL);
            self.script.command(session, kind::DATA_END, command);
        }
    }

    /// Parts of answers to sessions drawn at random, which have asked and get no end; watched or not.
    fn parts_of_answers(&mut self, payloads: fn(&Script) -> &[Part], watched: bool) {
        let mut draw = Draw::new();
        for session in 0..ALL {
            self.script.message(session, kind::DATA_END);
            if watched {
                self.script.watch(session);
            }
        }
        self.begin();
        for _ in 0..self.count() {
            let payload = draw.pick(payloads(&self.script));
            self.script.part_of_answer(draw.below(ALL), payload);
        }
    }
}

/// In a round's order: the release comes after the request, and unless Data and DataEND may stand
/// between them, neither does.
fn orderly(order: &[Kind; 6], between: bool) -> bool {
    let place = |which: Kind| order.iter().position(|other| *other == which);
    let (data, data_end) = (place(Kind::Data), place(Kind::DataEnd));
    let locked = place(Kind::Request)..place(Kind::Release);
    let apart = between || !(locked.contains(&data) || locked.contains(&data_end));
    place(Kind::Request) < place(Kind::Release) && apart
}

/// The mix and each of its kinds.
const OF_THE_MIX: [(&str, Make); 6] = [
    ("02's mix", |a| a.mix(ALL, false, &KINDS)),
    ("Data", |a| a.mix(ALL, false, &[Kind::Data])),
    ("DataEND", |a| a.mix(ALL, false, &[Kind::DataEnd])),
    ("status queries", |a| a.mix(ALL, false, &[Kind::Status])),
    ("lock requests and releases", |a| {
        a.mix(ALL, false, &[Kind::Request, Kind::Release]);
    }),
    ("pieces of messages", |a| a.mix(ALL, false, &[Kind::Piece])),
];

/// The mix with fewer sessions.
const FEWER: [(u32, Make); 3] = [
    (1, |a| a.mix(1, false, &KINDS)),
    (4, |a| a.mix(4, false, &KINDS)),
    (16, |a| a.mix(16, false, &KINDS)),
];

/// A session's request in the rows with waiting requests.
const EXCLUSIVE: fn(&Script, u32) -> Part = |script, _| script.wait;
const SHORT: fn(&Script, u32) -> Part = |script, session| script.wait_short[session as usize];
const LONG: fn(&Script, u32) -> Part = |script, session| script.wait_long[session as usize];

/// How the common way grows with those that wait: not at all, if all is well.
const BESIDE: [(u32, Make); 3] = [
    (0, |a| a.beside_waiting(0)),
    (FEW, |a| a.beside_waiting(FEW)),
    (ALL - 1, |a| a.beside_waiting(ALL - 1)),
];

/// Answers with readings, as text and as blocks that are looked into.
const READINGS: [(&str, Make); 3] = [
    ("answers that are no block", |a| {
        a.parts_of_answers(|script| &script.texts, true);
    }),
    ("blocks of 250 readings", |a| {
        a.parts_of_answers(|script| &script.blocks, false);
    }),
    ("blocks of 250 readings, watched", |a| {
        a.parts_of_answers(|script| &script.blocks, true);
    }),
];

/// DataEND beside a list of allowed commands, and the same without one.
const COMMANDS: [(&str, Make); 3] = [
    ("DataEND, no list of commands", |a| {
        a.commands(&ALLOWED, false)
    }),
    ("DataEND, 32 patterns", |a| a.commands(&ALLOWED, true)),
    ("DataEND, 32 patterns, not allowed", |a| {
        a.commands(&NOT_ALLOWED, true)
    }),
];

/// The mix beside what 02's requests may set, and what a journal costs.
const SET: [(&str, Make); 2] = [
    ("02's mix, 32 patterns set", Author::listed_mix),
    ("02's mix, watched", Author::watched_mix),
];
const KEPT: [(&str, Make); 2] = [
    ("02's mix, journal kept", |a| a.mix(ALL, false, &KINDS)),
    (
        "DataEND and 1,024-byte answers, journal kept",
        Author::answers,
    ),
];
const SUMS: [(&str, Make); 2] = [
    ("CRC-32 of 1,024 bytes, beside a byte a step", |a| {
        a.reads(Sum::ByBytes);
    }),
    ("CRC-32 of 1,024 bytes, beside eight bytes a step", |a| {
        a.reads(Sum::ByEights);
    }),
];

/// All workloads, in the page's order.
pub fn all() -> Vec<Plan> {
    let mut all = Vec::new();
    for (name, make) in OF_THE_MIX {
        all.push(Plan::new(name, make));
        all.push(Plan {
            clear: true,
            ..Plan::new(&format!("{name}, buffer cleared"), make)
        });
    }
    for (sessions, make) in FEWER.into_iter().filter(|fewer| fewer.0 < ALL) {
        let name = format!("02's mix, sessions drawn from {sessions}");
        all.push(Plan::new(&name, make));
    }
    let third_held: Make = |a| a.mix(ALL, true, &KINDS);
    all.extend([
        Plan::new("02's mix, in a fixed order", Author::in_turn),
        Plan::new("02's mix, a third of Data held", third_held),
        Plan::new("Data and DataEND, held", Author::held),
    ]);
    for (others, make) in BESIDE {
        let name = format!("the mix without locks, {others} waiting");
        all.push(Plan::new(&name, make));
    }
    let few: Make = |a| a.storm(FEW + 1, EXCLUSIVE);
    all.push(Plan::new(&format!("exclusive, {FEW} waiting"), few));
    all.extend(waiting(ALL - 1).map(|(name, make)| Plan::new(&name, make)));
    all.push(Plan::new("DataEND and 1,024-byte answers", Author::answers));
    let settings = READINGS.into_iter().chain(COMMANDS).chain(SET);
    all.extend(settings.map(|(name, make)| Plan::new(name, make)));
    all.extend(KEPT.map(|(name, make)| Plan {
        kept: true,
        ..Plan::new(name, make)
    }));
    all.extend(SUMS.map(|(name, make)| Plan::new(name, make)));
    all
}

/// Lock requests and releases while so many others wait.
fn waiting(others: u32) -> [(String, Make); 5] {
    let short = format!("{SHORT_STRING}-byte strings, {others} waiting");
    let long = format!("{LOCK_STRING}-byte strings, {others} waiting");
    let to_share = format!("release in vain, {others} wait to share");
    [
        (format!("exclusive, {others} waiting"), |a| {
            a.storm(ALL, EXCLUSIVE);
        }),
        (short, |a| a.storm(ALL, SHORT)),
        (long, |a| a.storm(ALL, LONG)),
        (format!("release in vain, {others} waiting"), |a| {
            a.in_vain(EXCLUSIVE);
        }),
        (to_share, |a| a.in_vain(LONG)),
    ]
}
