//! What one session said and was told.

use std::collections::BTreeMap;

use query::message::Message;
use query::names;
use reference::Mode;

use crate::walk::Step;

/// A message that acted on the instrument: a command or a device clear.
pub struct Act {
    pub entry: u64,
    pub clock: u64,
    pub session: u16,
    pub says: String,
    pub clears: bool,
}

impl Act {
    pub fn of(step: &Step, session: u16, message: &Message) -> Act {
        Act {
            entry: step.entry,
            clock: step.view.clock,
            session,
            says: says(message.kind, message.parameter, &message.payload),
            clears: message.kind == names::ASYNC_DEVICE_CLEAR,
        }
    }
}

/// A message with its whole payload: nothing is cut off here.
fn says(kind: u8, number: u32, payload: &[u8]) -> String {
    let name = names::of_type(kind);
    match kind {
        names::DATA | names::DATA_END => format!("{name} {number:08x} {}", quoted(payload)),
        names::TRIGGER => format!("{name} {number:08x}"),
        _ => name,
    }
}

pub fn quoted(bytes: &[u8]) -> String {
    format!("\"{}\"", bytes.escape_ascii())
}

/// A DataEND with the Data before it, or a Trigger.
#[derive(Clone)]
pub struct Command {
    pub entry: u64,
    pub clock: u64,
    pub says: String,
}

/// A part of an answer that was sent.
pub struct Part<'a> {
    pub entry: u64,
    pub clock: u64,
    pub message_id: u32,
    pub payload: &'a [u8],
}

/// How long the exclusive lock had been held when an answer was sent.
#[derive(Clone, Copy, PartialEq, Eq)]
pub enum Held {
    /// From before the session's first command, since this entry.
    AllTheWhile(u64),
    Since(u64),
    Not,
}

/// How much another session did.
#[derive(Clone, Copy, Default)]
pub struct Did {
    pub commands: usize,
    pub clears: usize,
}

/// What was sent of an answer, as things stood with its last part.
pub struct Answer {
    pub entry: u64,
    pub clock: u64,
    pub message_id: u32,
    pub payload: Vec<u8>,
    pub parts: usize,
    pub command: Option<Command>,
    pub held: Held,
    /// How many acts there had been.
    pub acts: usize,
    /// Who else had acted since the session's first command.
    pub others: BTreeMap<u16, Did>,
}

/// What ended an answer.
#[derive(Clone, Copy, PartialEq, Eq)]
pub enum Ended {
    End,
    Interrupted,
    Asked,
    Cleared,
    Closed,
    Journal,
}

pub struct Talk {
    pub mode: Mode,
    /// The session's first command, by its place among all that acted.
    pub first: Option<usize>,
    /// Data that no DataEND has ended yet.
    unended: Vec<u8>,
    command: Option<Command>,
    /// What was sent of an answer that has not ended.
    pub answer: Option<Answer>,
    /// Who else has acted since the first command: counted as it happens, since an answer looks at no act twice.
    others: BTreeMap<u16, Did>,
    /// The entry that granted the exclusive lock.
    pub exclusive_since: Option<u64>,
    /// The session's last reading, and how many acts there had been.
    pub listed: Option<(usize, usize)>,
}

impl Talk {
    pub fn new(mode: Mode) -> Talk {
        Talk {
            mode,
            first: None,
            unended: Vec::new(),
            command: None,
            answer: None,
            others: BTreeMap::new(),
            exclusive_since: None,
            listed: None,
        }
    }

    pub fn clear(&mut self) {
        self.unended.clear();
        self.command = None;
    }

    /// A Data, DataEND or Trigger acted, the so-many-th of all.
    pub fn command(&mut self, step: &Step, place: usize, message: &Message) {
        self.first.get_or_insert(place);
        if message.kind != names::TRIGGER {
            self.unended.extend(&message.payload);
        }
        if message.kind == names::DATA {
            return;
        }
        let whole = match message.kind {
            names::TRIGGER => Vec::new(),
            _ => std::mem::take(&mut self.unended),
        };
        self.command = Some(Command {
            entry: step.entry,
            clock: step.view.clock,
            says: says(message.kind, message.parameter, &whole),
        });
    }

    /// In synchronized mode another number is another question's answer.
    pub fn asked_anew(&self, message_id: u32) -> bool {
        let other = |answer: &Answer| answer.message_id != message_id;
        self.mode == Mode::Synchronized && self.answer.as_ref().is_some_and(other)
    }

    pub fn answered(&mut self, part: Part, acts: &[Act]) {
        let before = self.answer.take();
        let (mut payload, parts) = before.map_or((Vec::new(), 0), |a| (a.payload, a.parts));
        payload.extend(part.payload);
        self.answer = Some(Answer {
            entry: part.entry,
            clock: part.clock,
            message_id: part.message_id,
            payload,
            parts: parts + 1,
            command: self.command.clone(),
            held: self.held(acts),
            acts: acts.len(),
            others: self.others.clone(),
        });
    }

    /// Another session acted.
    pub fn other_acted(&mut self, act: &Act) {
        if self.first.is_none() {
            return;
        }
        let did = self.others.entry(act.session).or_default();
        match act.clears {
            true => did.clears += 1,
            false => did.commands += 1,
        }
    }

    fn held(&self, acts: &[Act]) -> Held {
        let first = self.first.and_then(|place| acts.get(place));
        match self.exclusive_since {
            Some(since) if first.is_none_or(|act| since < act.entry) => Held::AllTheWhile(since),
            Some(since) => Held::Since(since),
            None => Held::Not,
        }
    }
}
