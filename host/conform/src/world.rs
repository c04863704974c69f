//! The programs at the other end, as a list's author sees them: which connections are open, what
//! they have sent and nobody has taken yet, and which sessions they got.

use reference::limits::CONNECTIONS;
use reference::{Event, Mode, Reply};

use crate::messages::BEFORE_FIRST;

/// A program's first MessageID.
const FIRST: u32 = 0xffff_ff00;

#[derive(Clone, Copy, Debug, PartialEq, Eq)]
pub enum Role {
    NotOpen,
    Undecided,
    Synchronous(u16),
    Asynchronous(u16),
}

#[derive(Clone, Debug)]
pub struct Wire {
    pub role: Role,
    pub unread: Vec<u8>,
}

#[derive(Clone, Copy, Debug)]
pub struct Known {
    pub number: u16,
    pub synchronous: u32,
    pub asynchronous: Option<u32>,
    /// MessageID of the program's next message.
    pub next: u32,
    /// MessageID that the server expects.
    pub expected: u32,
    /// MessageID of its last message that acted.
    pub last: u32,
    /// A question has gone to the instrument.
    pub asked: bool,
    /// The last lock message asked for a lock.
    pub wants: bool,
    pub mode: Mode,
    pub in_clear: bool,
    /// In overlap mode, the number of the next answer.
    pub count: u32,
    /// In synchronized mode, an answer's end was sent, and no message has told of its delivery.
    pub rmt_expected: bool,
}

impl Known {
    /// An answer would be sent.
    pub fn may_answer(&self) -> bool {
        match self.mode {
            Mode::Synchronized => self.asked,
            Mode::Overlap => self.asynchronous.is_some() && !self.in_clear,
        }
    }
}

#[derive(Clone, Debug)]
pub struct World {
    pub wires: Vec<Wire>,
    pub sessions: Vec<Known>,
    pub clock: u64,
    /// The mode that sessions start in.
    prefers: Mode,
}

impl World {
    pub fn new(prefers: Mode) -> World {
        let wire = Wire {
            role: Role::NotOpen,
            unread: Vec::new(),
        };
        World {
            wires: vec![wire; CONNECTIONS],
            sessions: Vec::new(),
            clock: 0,
            prefers,
        }
    }

    pub fn not_open(&self) -> Vec<u32> {
        self.with_role(|role| role == Role::NotOpen)
    }

    pub fn with_role(&self, wanted: impl Fn(Role) -> bool) -> Vec<u32> {
        let numbers = 0..self.wires.len() as u32;
        numbers
            .filter(|number| wanted(self.wires[*number as usize].role))
            .collect()
    }

    pub fn established(&self) -> Vec<Known> {
        let both = |known: &&Known| known.asynchronous.is_some();
        self.sessions.iter().filter(both).copied().collect()
    }

    pub fn half_open(&self) -> Vec<Known> {
        let one = |known: &&Known| known.asynchronous.is_none();
        self.sessions.iter().filter(one).copied().collect()
    }

    /// A program whose bytes are all taken begins again where the server is.
    pub fn fall_in(&mut self, number: u16) -> u32 {
        let wires = &self.wires;
        let mut sessions = self.sessions.iter_mut();
        let known = sessions.find(|known| known.number == number);
        known.map_or(0, |known| {
            if wires[known.synchronous as usize].unread.is_empty() {
                known.next = known.expected;
            }
            known.next
        })
    }

    /// A session's program has sent the message of this number.
    pub fn sent(&mut self, number: u16, message_id: u32) {
        if let Some(known) = self.known(number.into()) {
            known.next = message_id.wrapping_add(2);
        }
    }

    /// What an event did, by its answer. `own` says that the bytes shown were the unread ones.
    pub fn learn(&mut self, event: &Event, reply: &Reply, own: bool) {
        if reply.refusal != 0 {
            return;
        }
        match event {
            Event::Open { connection } => self.set_role(*connection, Role::Undecided),
            Event::Cut { connection, .. } => self.close(*connection),
            Event::Clock { milliseconds, .. } => self.clock = *milliseconds,
            Event::Deliver {
                connection, bytes, ..
            } => {
                if own {
                    self.took(*connection, reply.taken as usize);
                }
                if matches!(reply.outcome, Reply::ACTED_ON | Reply::ERROR_SENT) {
                    self.count(*connection, bytes);
                }
                match (reply.outcome, bytes.get(2)) {
                    (Reply::CLOSED, _) => self.close(*connection),
                    (Reply::ACTED_ON, Some(0)) => self.begin(*connection, reply.session as u16),
                    (Reply::ACTED_ON, Some(17)) => self.join(*connection, reply.session as u16),
                    (Reply::ACTED_ON, _) => self.acted_on(reply.session as u16, bytes),
                    _ => {}
                }
            }
            Event::Answer { session, end, .. } => {
                if let Some(known) = self.known(*session) {
                    known.asked &= *end == 0;
                    known.count = known.count.wrapping_add(2);
                    known.rmt_expected |= *end != 0 && reply.withheld == 0;
                }
            }
            Event::Status { .. } | Event::Watch { .. } | Event::Patterns { .. } => {}
        }
    }

    fn known(&mut self, number: u32) -> Option<&mut Known> {
        let mut sessions = self.sessions.iter_mut();
        sessions.find(|known| u32::from(known.number) == number)
    }

    /// Data, DataEND or Trigger was taken: the count moves on if it is in step.
    fn count(&mut self, connection: u32, bytes: &[u8]) {
        let &[_, _, 6 | 7 | 12, _, p0, p1, p2, p3, ..] = bytes else {
            return;
        };
        let number = u32::from_be_bytes([p0, p1, p2, p3]);
        let mut sessions = self.sessions.iter_mut();
        let known = sessions.find(|known| known.synchronous == connection);
        if let Some(known) = known.filter(|known| !known.in_clear && known.expected == number) {
            known.expected = number.wrapping_add(2);
        }
    }

    fn acted_on(&mut self, number: u16, bytes: &[u8]) {
        let Some(known) = self.known(number.into()) else {
            return;
        };
        let &[_, _, kind, code, p0, p1, p2, p3, ..] = bytes else {
            return;
        };
        match kind {
            4 => known.wants = code == 1,
            6 | 7 | 12 => {
                known.asked |= kind != 6;
                known.rmt_expected = false;
                known.last = u32::from_be_bytes([p0, p1, p2, p3]);
            }
            21 => known.rmt_expected &= code == 0,
            8 => {
                known.next = FIRST;
                known.in_clear = false;
                known.mode = Mode::of_code(code);
            }
            19 => {
                known.asked = false;
                known.in_clear = true;
                known.rmt_expected = false;
                (known.next, known.last, known.count) = (FIRST, BEFORE_FIRST, FIRST);
                known.expected = FIRST;
            }
            _ => {}
        }
    }

    fn set_role(&mut self, connection: u32, role: Role) {
        if let Some(wire) = self.wires.get_mut(connection as usize) {
            wire.role = role;
        }
    }

    fn took(&mut self, connection: u32, taken: usize) {
        if let Some(wire) = self.wires.get_mut(connection as usize) {
            wire.unread.drain(..taken.min(wire.unread.len()));
        }
    }

    fn begin(&mut self, connection: u32, number: u16) {
        self.set_role(connection, Role::Synchronous(number));
        self.sessions.push(Known {
            number,
            synchronous: connection,
            asynchronous: None,
            next: FIRST,
            expected: FIRST,
            last: BEFORE_FIRST,
            asked: false,
            wants: false,
            mode: self.prefers,
            in_clear: false,
            count: FIRST,
            rmt_expected: false,
        });
    }

    fn join(&mut self, connection: u32, number: u16) {
        self.set_role(connection, Role::Asynchronous(number));
        for known in &mut self.sessions {
            if known.number == number {
                known.asynchronous = Some(connection);
            }
        }
    }

    fn close(&mut self, connection: u32) {
        let Some(wire) = self.wires.get_mut(connection as usize) else {
            return;
        };
        let role = std::mem::replace(&mut wire.role, Role::NotOpen);
        wire.unread.clear();
        if let Role::Synchronous(number) | Role::Asynchronous(number) = role {
            self.sessions.retain(|known| known.number != number);
            for wire in &mut self.wires {
                if wire.role == Role::Synchronous(number) || wire.role == Role::Asynchronous(number)
                {
                    wire.role = Role::NotOpen;
                    wire.unread.clear();
                }
            }
        }
    }
}
