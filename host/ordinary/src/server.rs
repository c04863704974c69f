//! The state, and the events that are not deliveries.

use reference::limits::{CLOCK, CONNECTIONS, GRANTS, OUTPUT, PAYLOAD, SESSIONS};
use reference::wire::{kind, HEADER};
use reference::{Mode, Refusal, Reply, Watch};

use crate::commands::Allowed;
use crate::frames::Frames;
use crate::locks::{Locks, Released};
use crate::readings::Record;
use crate::replies::{done, refused, withheld};

#[derive(Clone, Copy, PartialEq, Eq, Hash)]
pub enum Role {
    NotOpen,
    /// Open, and no message has given it a role yet.
    Undecided,
    /// The synchronous connection of a session that has no other yet.
    HalfOpen,
    Synchronous,
    Asynchronous,
}

#[derive(Clone, Copy, Hash)]
pub struct Connection {
    /// Payload bytes of a too large message that are still to come.
    pub skip: u64,
    pub role: Role,
    /// Its session's slot, if it has one.
    pub slot: u8,
}

const NOT_OPEN: Connection = Connection {
    skip: 0,
    role: Role::NotOpen,
    slot: 0,
};

/// A release that waits for the message it names.
#[derive(Clone, Copy, Hash)]
pub struct Standing {
    pub number: u32,
    /// What it frees; fixed when it arrives.
    pub lock: Released,
}

#[derive(Clone, Copy, Hash)]
pub struct Session {
    /// 0: nobody is in this slot.
    pub number: u16,
    pub synchronous: u8,
    /// None while the session is half-open.
    pub asynchronous: Option<u8>,
    pub in_clear: bool,
    pub message_available: bool,
    /// MessageID that the instrument's answer will carry.
    pub asked: Option<u32>,
    /// MessageID of the last Data, DataEND or Trigger that acted since opening or AsyncDeviceClear.
    pub last: Option<u32>,
    pub standing: Option<Standing>,
    pub mode: Mode,
    /// Overlap mode: the number of the next answer, and of the last one.
    pub count: u32,
    pub sent: Option<u32>,
    /// Synchronized mode: an END was sent, and no message has told yet that it was delivered.
    pub rmt_expected: bool,
    /// MessageID that the next Data, DataEND or Trigger must carry.
    pub expected: u32,
    pub client_size: u64,
    /// The reading of the clock at its last grant, and the locks granted to it since it opened.
    pub granted_at: u64,
    pub grants: u64,
    pub watch: Watch,
    /// A reading has tripped the watch since it was set.
    pub tripped: bool,
    /// None while no numeric reading was sent.
    pub record: Option<Record>,
}

/// Where every count of messages starts.
pub const FIRST: u32 = 0xffff_ff00;

const NOBODY: Session = Session {
    number: 0,
    synchronous: 0,
    asynchronous: None,
    in_clear: false,
    message_available: false,
    asked: None,
    last: None,
    standing: None,
    mode: Mode::Synchronized,
    count: FIRST,
    sent: None,
    rmt_expected: false,
    expected: FIRST,
    client_size: PAYLOAD as u64,
    granted_at: 0,
    grants: 0,
    watch: Watch::Off,
    tripped: false,
    record: None,
};

impl Session {
    pub fn new(number: u16, synchronous: u8, mode: Mode) -> Session {
        Session {
            number,
            synchronous,
            mode,
            ..NOBODY
        }
    }

    /// The number that an answer would carry, if one may be sent.
    fn answer_number(&self) -> Option<u32> {
        match self.mode {
            Mode::Synchronized => self.asked,
            Mode::Overlap if self.asynchronous.is_none() || self.in_clear => None,
            Mode::Overlap => Some(self.count),
        }
    }

    /// Moves on if this is the number expected; otherwise false.
    pub fn in_step(&mut self, number: u32) -> bool {
        let right = number == self.expected;
        if right {
            self.expected = number.wrapping_add(2);
        }
        right
    }

    /// An answer of this number is sent, with END or without.
    fn answered(&mut self, number: u32, end: bool) {
        if self.mode == Mode::Overlap {
            self.sent = Some(number);
            self.count = number.wrapping_add(2);
            return;
        }
        self.message_available = true;
        if end {
            self.asked = None;
            self.rmt_expected = true;
        }
    }

    /// A lock is granted to it.
    pub fn granted(&mut self, clock: u64) {
        self.granted_at = clock;
        self.grants = GRANTS.min(self.grants + 1);
    }

    /// What was asked is forgotten, and the client is told on both channels which message interrupted.
    pub fn interrupt(&mut self, number: u32, frames: &mut Frames) {
        self.asked = None;
        self.message_available = false;
        if let Some(asynchronous) = self.asynchronous {
            frames.send(asynchronous, kind::ASYNC_INTERRUPTED, 0, number);
        }
        frames.send(self.synchronous, kind::INTERRUPTED, 0, number);
    }
}

/// Shared by all sessions, and outlives them.
#[derive(Clone, Copy, Default, Hash)]
pub struct RemoteLocal {
    pub enable: bool,
    pub lockout: bool,
    pub remote: bool,
}

#[derive(Clone, Hash)]
pub struct Server {
    pub(crate) vendor: u16,
    /// The mode that sessions start in.
    pub(crate) prefers: Mode,
    pub(crate) last_issued: u16,
    pub(crate) status: u8,
    pub(crate) remote_local: RemoteLocal,
    pub(crate) clock: u64,
    pub(crate) connections: [Connection; CONNECTIONS],
    pub(crate) sessions: [Session; SESSIONS],
    pub(crate) locks: Locks,
    /// None while the host has set no list: then all is allowed.
    pub(crate) allowed: Option<Allowed>,
}

impl Server {
    pub fn new(vendor: u16, prefers: Mode) -> Server {
        Server {
            vendor,
            prefers,
            last_issued: 0,
            status: 0,
            remote_local: RemoteLocal::default(),
            clock: 0,
            connections: [NOT_OPEN; CONNECTIONS],
            sessions: [NOBODY; SESSIONS],
            locks: Locks::new(),
            allowed: None,
        }
    }

    pub fn open(&mut self, connection: u32) -> Reply {
        let Some(here) = self.connections.get_mut(connection as usize) else {
            return refused(Refusal::Connection);
        };
        if here.role != Role::NotOpen {
            return refused(Refusal::AlreadyOpen);
        }
        here.role = Role::Undecided;
        done(0)
    }

    pub fn cut(&mut self, connection: u32, out: &mut [u8]) -> Reply {
        let Some(out) = out.first_chunk_mut::<OUTPUT>() else {
            return refused(Refusal::ShortBuffer);
        };
        match self.connections.get(connection as usize) {
            Some(here) if here.role != Role::NotOpen => {
                let mut frames = Frames::new(out);
                self.close(connection as u8, &mut frames);
                done(frames.used())
            }
            _ => refused(Refusal::Connection),
        }
    }

    pub fn clock(&mut self, milliseconds: u64, out: &mut [u8]) -> Reply {
        let Some(out) = out.first_chunk_mut::<OUTPUT>() else {
            return refused(Refusal::ShortBuffer);
        };
        if milliseconds > CLOCK {
            return refused(Refusal::ClockTooHigh);
        }
        if milliseconds < self.clock {
            return refused(Refusal::ClockBackwards);
        }
        self.clock = milliseconds;
        let mut frames = Frames::new(out);
        self.locks.expire(milliseconds, |_, connection| {
            frames.send(connection, kind::LOCK_RESPONSE, 0, 0);
        });
        done(frames.used())
    }

    /// The instrument's answer to a session, beside its unread synchronous bytes. A call of its own, like
    /// the library's.
    #[inline(never)]
    pub fn answer(
        &mut self,
        session: u32,
        payload: &[u8],
        end: u8,
        shown: &[u8],
        out: &mut [u8],
    ) -> Reply {
        let Some(out) = out.first_chunk_mut::<OUTPUT>() else {
            return refused(Refusal::ShortBuffer);
        };
        let mut live = self.sessions.iter_mut().filter(|live| live.number != 0);
        let Some(live) = live.find(|live| u32::from(live.number) == session) else {
            return refused(Refusal::NoSession);
        };
        let Some(number) = live.answer_number() else {
            return refused(Refusal::NothingAsked);
        };
        if payload.len() > PAYLOAD || payload.len() as u64 > live.client_size {
            return refused(Refusal::AnswerTooLong);
        }
        let mut frames = Frames::new(out);
        let skips = self.connections[usize::from(live.synchronous)].skip > 0;
        if end != 0 && live.mode == Mode::Synchronized && !skips {
            if let Some(interrupts) = interrupting(shown) {
                live.interrupt(interrupts, &mut frames);
                return withheld(frames.used());
            }
        }
        live.answered(number, end != 0);
        let kind = if end == 0 { kind::DATA } else { kind::DATA_END };
        frames.send_with(live.synchronous, kind, 0, number, payload);
        live.read(payload, self.status, &mut frames);
        done(frames.used())
    }

    pub fn status(&mut self, status: u8) {
        self.status = status;
    }

    /// Closes as if cut: the connection, its session if it has one, and all that goes with it. Returns
    /// the session's number, or 0.
    pub(crate) fn close(&mut self, connection: u8, frames: &mut Frames) -> u16 {
        let here = &mut self.connections[usize::from(connection)];
        let Connection { role, slot, .. } = *here;
        *here = NOT_OPEN;
        if matches!(role, Role::NotOpen | Role::Undecided) {
            return 0;
        }
        let place = &mut self.sessions[usize::from(slot)];
        let session = *place;
        *place = NOBODY;
        self.connections[usize::from(session.synchronous)] = NOT_OPEN;
        if let Some(asynchronous) = session.asynchronous {
            self.connections[usize::from(asynchronous)] = NOT_OPEN;
        }
        self.locks.forget(slot);
        self.grant_pass(frames);
        session.number
    }

    pub(crate) fn grant_pass(&mut self, frames: &mut Frames) {
        let (sessions, clock) = (&mut self.sessions, self.clock);
        self.locks.grant_pass(|slot, connection| {
            sessions[usize::from(slot)].granted(clock);
            frames.send(connection, kind::LOCK_RESPONSE, 1, 0);
        });
    }
}

/// The number of the Data, DataEND or Trigger that unread bytes begin with; a whole header will do.
fn interrupting(shown: &[u8]) -> Option<u32> {
    let header = shown.first_chunk::<HEADER>()?;
    let interrupts = matches!(header[2], kind::DATA | kind::DATA_END | kind::TRIGGER);
    let number = u32::from_be_bytes([header[4], header[5], header[6], header[7]]);
    (header[..2] == *b"HS" && interrupts).then_some(number)
}
