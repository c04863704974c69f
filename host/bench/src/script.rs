//! What the sessions' programs send: messages counted as the server expects them, releases that name the
//! last message, and RMT-delivered as answers have ended.

use std::collections::BTreeMap;

use reference::compose::{block, message};
use reference::journal::framing::entry;
use reference::limits::{LOCK_STRING, PAYLOAD, SESSIONS};
use reference::wire::kind;

use crate::contender::Sum;
use crate::draw::Draw;

/// A message or a payload in `Script::bytes`.
#[derive(Clone, Copy, PartialEq, Eq)]
pub struct Part {
    pub start: u32,
    pub length: u32,
}

/// One event of a timed loop.
#[derive(Clone, Copy)]
pub enum Step {
    /// Connection, and what it shows.
    Deliver(u32, Part),
    /// Session, and the payload: the end of its answer, or a part of it.
    Answer(u32, Part),
    PartOfAnswer(u32, Part),
    /// Session: a watch over its readings that none of them trips.
    Watch(u32),
    /// The list of allowed commands.
    Allow,
    /// An entry of a journal, and the sum that the ordinary server takes of it.
    Read(Part, Sum),
}

/// MessageID of a program's first message.
const FIRST: u32 = 0xffff_ff00;
/// What a release names before it.
const BEFORE_FIRST: u32 = FIRST - 2;
/// Readings in a block, as many as it may have.
const READINGS: usize = 250;
/// So many different payloads of a kind are answered in turn.
const KEPT: u32 = 16;
/// Bytes that the sum of an entry is over.
const SUMMED: usize = 1_024;
/// A lock string that fills a word.
pub const SHORT_STRING: usize = 8;
const COMMAND: &[u8] = b"CONFigure:VOLTage:DC 10,0.001;:INITiate";
/// 32 patterns, a line each, beside comments.
const VOLTMETER: &str = include_str!("../../gateway/lists/voltmeter.txt");
/// Commands that the list allows, from its first pattern to its last, as programs write them; and two that it
/// does not.
pub const ALLOWED: [&[u8]; 8] = [
    b"*CLS",
    b"*ESR?",
    b"*RST",
    b"MEAS:VOLT:DC? 10,0.001",
    b"CONFigure:VOLTage:DC 10,0.001",
    b"sens:volt:rang 10",
    b"SAMPle:COUNt 100",
    b"SYST:ERR?",
];
pub const NOT_ALLOWED: [&[u8]; 2] = [b"DISPlay:TEXT \"busy\"", b"SYST:PRES"];

/// The text of the list that `Step::Allow` sets.
#[cold]
pub fn voltmeter() -> Vec<u8> {
    let told = |line: &&str| !line.is_empty() && !line.starts_with('#');
    let lines = VOLTMETER.lines().filter(told);
    lines
        .flat_map(|line| [line, "\n"])
        .collect::<String>()
        .into()
}

#[derive(Clone, Copy, Default)]
struct Program {
    /// So many of its messages have acted.
    acted: u32,
    /// An answer has ended, and no message has told that it was delivered.
    answered: bool,
}

/// Type, code and payload of a message that carries a count.
type Kind = (u8, u8, &'static [u8]);

/// Steps one after another, and the bytes that they show.
pub struct Script {
    pub steps: Vec<Step>,
    pub bytes: Vec<u8>,
    programs: [Program; SESSIONS],
    /// Made when first sent; programs that are equally far send the same one. By type, code, payload and count.
    counted: BTreeMap<Kind, Vec<Option<Part>>>,
    /// With RMT-delivered 0 and 1.
    pub status: [Part; 2],
    pub exclusive: Part,
    pub shared: Part,
    /// Three pieces of a DataEND: less than a header, a header, and some payload.
    pub pieces: [Part; 3],
    /// Exclusive, with a long timeout.
    pub wait: Part,
    /// For each session a string of eight bytes, and one of the greatest length, with a long timeout; the last byte tells them apart.
    pub wait_short: Vec<Part>,
    pub wait_long: Vec<Part>,
    reading: Part,
    /// Readings as text, and in blocks of as many as a block may have.
    pub texts: Vec<Part>,
    pub blocks: Vec<Part>,
    /// Entries with a sum over 1,024 bytes, length and body.
    pub entries: Vec<Part>,
}

impl Script {
    pub fn new() -> Script {
        let mut bytes = Vec::new();
        let mut keep = |part: &[u8]| kept(&mut bytes, part);
        let mut draw = Draw::new();
        let piece = message(kind::DATA_END, 0, FIRST, COMMAND);
        let named = |length: usize, session: u8| {
            let mut string = vec![b's'; length];
            string[length - 1] = session;
            message(kind::LOCK, 1, u32::MAX, &string)
        };
        Script {
            status: [0, 1].map(|code| keep(&message(kind::STATUS_QUERY, code, FIRST, b""))),
            exclusive: keep(&message(kind::LOCK, 1, 0, b"")),
            shared: keep(&message(kind::LOCK, 1, 0, b"calibration")),
            pieces: [7, 16, 40].map(|length| keep(&piece[..length])),
            wait: keep(&message(kind::LOCK, 1, u32::MAX, b"")),
            wait_short: (1..=SESSIONS as u8)
                .map(|session| keep(&named(SHORT_STRING, session)))
                .collect(),
            wait_long: (1..=SESSIONS as u8)
                .map(|session| keep(&named(LOCK_STRING, session)))
                .collect(),
            reading: keep(&[b'7'; PAYLOAD]),
            texts: (0..KEPT).map(|one| keep(text(one).as_bytes())).collect(),
            blocks: (0..KEPT).map(|_| keep(&block(&volts(&mut draw)))).collect(),
            entries: (0..KEPT as u8)
                .map(|one| keep(&entry(&[one; SUMMED - 4])))
                .collect(),
            bytes,
            steps: Vec::new(),
            programs: [Program::default(); SESSIONS],
            counted: BTreeMap::new(),
        }
    }

    pub fn synchronous(&mut self, session: u32, part: Part) {
        self.steps.push(Step::Deliver(2 * session, part));
    }

    pub fn asynchronous(&mut self, session: u32, part: Part) {
        self.steps.push(Step::Deliver(2 * session + 1, part));
    }

    /// Data or DataEND of a session that has access.
    pub fn message(&mut self, session: u32, kind: u8) {
        self.command(session, kind, COMMAND);
    }

    /// The same with another payload.
    pub fn command(&mut self, session: u32, kind: u8, payload: &'static [u8]) {
        self.shown(session, kind, payload);
        let program = &mut self.programs[session as usize];
        program.acted += 1;
        program.answered = false;
    }

    /// Data or DataEND of a session that has none: it will be sent again.
    pub fn held(&mut self, session: u32, kind: u8) {
        self.shown(session, kind, COMMAND);
    }

    fn shown(&mut self, session: u32, kind: u8, payload: &'static [u8]) {
        let Program { acted, answered } = self.programs[session as usize];
        let number = FIRST.wrapping_add(2 * acted);
        let part = self.counted(kind, answered.into(), acted, number, payload);
        self.synchronous(session, part);
    }

    pub fn release(&mut self, session: u32) {
        let acted = self.programs[session as usize].acted;
        let number = BEFORE_FIRST.wrapping_add(2 * acted);
        let part = self.counted(kind::LOCK, 0, acted, number, b"");
        self.asynchronous(session, part);
    }

    /// The instrument's answer, with its end.
    pub fn answer(&mut self, session: u32) {
        self.programs[session as usize].answered = true;
        self.steps.push(Step::Answer(1 + session, self.reading));
    }

    /// A part of the instrument's answer.
    pub fn part_of_answer(&mut self, session: u32, payload: Part) {
        self.steps.push(Step::PartOfAnswer(1 + session, payload));
    }

    pub fn read(&mut self, entry: Part, sum: Sum) {
        self.steps.push(Step::Read(entry, sum));
    }

    pub fn allow(&mut self) {
        self.steps.push(Step::Allow);
    }

    pub fn watch(&mut self, session: u32) {
        self.steps.push(Step::Watch(1 + session));
    }

    /// A message that carries a count; equal counts have equal numbers.
    fn counted(
        &mut self,
        kind: u8,
        code: u8,
        count: u32,
        number: u32,
        payload: &'static [u8],
    ) -> Part {
        let made = self.counted.entry((kind, code, payload)).or_default();
        let place = count as usize;
        if made.len() <= place {
            made.resize(place + 1, None);
        }
        let bytes = &mut self.bytes;
        *made[place].get_or_insert_with(|| kept(bytes, &message(kind, code, number, payload)))
    }
}

/// A reading as meters write it.
fn text(one: u32) -> String {
    format!("+{}.{:08}E+00", one % 10, one * 12_345)
}

/// Readings from -10 to 10 volts.
fn volts(draw: &mut Draw) -> Vec<f32> {
    let mut volt = || draw.below(20_000_001) as f32 / 1_000_000.0 - 10.0;
    (0..READINGS).map(|_| volt()).collect()
}

fn kept(bytes: &mut Vec<u8>, part: &[u8]) -> Part {
    let start = bytes.len() as u32;
    bytes.extend_from_slice(part);
    let length = part.len() as u32;
    Part { start, length }
}
