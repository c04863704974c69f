//! The server's state and the events that are not deliveries (01: the desk).

use crate::limits::{CLOCK, CONNECTIONS, OUTPUT, PAYLOAD, SESSIONS};
use crate::lock_view::{LockView, SessionView, StandingView, WaitingView};
use crate::locks::{Locks, Released, Request};
use crate::mode::Mode;
use crate::readings::Record;
use crate::reply::{Answered, Refusal};
use crate::spelling::Pattern;
use crate::watch::Watch;
use crate::wire::{kind, Frames, Header};

#[derive(Clone, Copy, Debug, PartialEq, Eq, Hash)]
pub(crate) enum Role {
    NotOpen,
    /// Open, and no message has given it a role yet.
    Undecided,
    /// The number is the session's slot.
    Synchronous(u8),
    Asynchronous(u8),
}

#[derive(Clone, Copy, Debug, PartialEq, Eq, Hash)]
pub(crate) struct Connection {
    pub role: Role,
    /// Payload bytes of a too large message that are still to come.
    pub skip: u64,
}

const NOT_OPEN: Connection = Connection {
    role: Role::NotOpen,
    skip: 0,
};

/// A release that waits for the message it names.
#[derive(Clone, Copy, Debug, PartialEq, Eq, Hash)]
pub(crate) struct Standing {
    pub number: u32,
    /// Fixed when the release arrived.
    pub lock: Released,
}

#[derive(Clone, Copy, Debug, PartialEq, Eq, Hash)]
pub(crate) struct Session {
    pub number: u16,
    pub synchronous: u8,
    /// None while the session is half-open.
    pub asynchronous: Option<u8>,
    /// MessageID that the instrument's answer will carry.
    pub asked: Option<u32>,
    pub message_available: bool,
    pub in_clear: bool,
    pub client_size: u64,
    /// MessageID of the last Data, DataEND or Trigger that acted since opening or AsyncDeviceClear.
    pub last: Option<u32>,
    pub standing: Option<Standing>,
    pub mode: Mode,
    /// Overlap mode: the number of the next answer, and of the last one since the last reset.
    pub count: u32,
    pub sent: Option<u32>,
    /// Synchronized mode: an END was sent, and no message has told yet that it was delivered.
    pub rmt_expected: bool,
    /// MessageID that the next Data, DataEND or Trigger must carry.
    pub expected: u32,
    /// The reading of the clock at its last grant, and the locks granted to it since it opened.
    pub granted_at: u64,
    pub grants: u64,
    pub watch: Watch,
    /// A reading has tripped the watch since it was set.
    pub tripped: bool,
    /// None while no numeric reading was sent.
    pub record: Option<Record>,
}

impl Session {
    /// The number that an answer would carry; None if none may be sent (refusal 5).
    fn answer_number(&self) -> Option<u32> {
        match self.mode {
            Mode::Synchronized => self.asked,
            Mode::Overlap if self.asynchronous.is_none() || self.in_clear => None,
            Mode::Overlap => Some(self.count),
        }
    }

    /// An answer was sent, with END or without.
    fn answered(&mut self, end: bool) {
        match self.mode {
            Mode::Synchronized => {
                self.message_available = true;
                if end {
                    self.asked = None;
                    self.rmt_expected = true;
                }
            }
            Mode::Overlap => {
                self.sent = Some(self.count);
                self.count = self.count.wrapping_add(2);
            }
        }
    }

    /// Moves on if this is the number expected; otherwise false.
    pub fn in_step(&mut self, number: u32) -> bool {
        let right = number == self.expected;
        if right {
            self.expected = self.expected.wrapping_add(2);
        }
        right
    }

    /// The interrupted error: what was asked is forgotten, and the client is told on both channels which
    /// message interrupted.
    pub fn interrupt(&mut self, number: u32, frames: &mut Frames) {
        self.asked = None;
        self.message_available = false;
        if let Some(asynchronous) = self.asynchronous {
            frames.send(asynchronous, kind::ASYNC_INTERRUPTED, 0, number);
        }
        frames.send(self.synchronous, kind::INTERRUPTED, 0, number);
    }

    /// Message available, as a status query that carries this number sees it.
    pub fn available(&self, number: u32) -> bool {
        match self.mode {
            Mode::Synchronized => self.message_available,
            Mode::Overlap => self.sent.is_some_and(|sent| sent != number),
        }
    }
}

/// Shared by all sessions, and outlives them.
#[derive(Clone, Copy, Debug, Default, PartialEq, Eq, Hash)]
pub struct RemoteLocal {
    pub enable: bool,
    pub lockout: bool,
    pub remote: bool,
}

#[derive(Clone, Debug, PartialEq, Eq, Hash)]
pub struct Server {
    pub(crate) vendor: u16,
    /// The mode that sessions start in.
    pub(crate) prefers: Mode,
    pub(crate) status: u8,
    pub(crate) clock: u64,
    pub(crate) last_issued: u16,
    pub(crate) remote_local: RemoteLocal,
    pub(crate) connections: [Connection; CONNECTIONS],
    pub(crate) sessions: [Option<Session>; SESSIONS],
    pub(crate) locks: Locks,
    /// The commands that the host allows; None while it has not said, and then all are.
    pub(crate) allowed: Option<Vec<Pattern>>,
}

impl Server {
    /// A fresh server that prefers synchronized mode.
    pub fn new(vendor: u16) -> Server {
        Server::preferring(vendor, Mode::Synchronized)
    }

    pub fn preferring(vendor: u16, prefers: Mode) -> Server {
        Server {
            vendor,
            prefers,
            status: 0,
            clock: 0,
            last_issued: 0,
            remote_local: RemoteLocal::default(),
            connections: [NOT_OPEN; CONNECTIONS],
            sessions: [None; SESSIONS],
            locks: Locks::new(),
            allowed: None,
        }
    }

    pub fn open(&mut self, connection: u32) -> Result<(), Refusal> {
        let connection = self
            .connections
            .get_mut(connection as usize)
            .ok_or(Refusal::Connection)?;
        if connection.role != Role::NotOpen {
            return Err(Refusal::AlreadyOpen);
        }
        connection.role = Role::Undecided;
        Ok(())
    }

    /// Returns the bytes of output.
    pub fn cut(&mut self, connection: u32, out: &mut [u8]) -> Result<usize, Refusal> {
        if out.len() < OUTPUT {
            return Err(Refusal::ShortBuffer);
        }
        let connection = self.opened(connection)?;
        let mut frames = Frames::new(out);
        self.close(connection, &mut frames);
        Ok(frames.used())
    }

    /// Returns the bytes of output.
    pub fn clock(&mut self, milliseconds: u64, out: &mut [u8]) -> Result<usize, Refusal> {
        if out.len() < OUTPUT {
            return Err(Refusal::ShortBuffer);
        }
        if milliseconds > CLOCK {
            return Err(Refusal::ClockTooHigh);
        }
        if milliseconds < self.clock {
            return Err(Refusal::ClockBackwards);
        }
        self.clock = milliseconds;
        let mut frames = Frames::new(out);
        let sessions = &self.sessions;
        self.locks.expire(milliseconds, |slot| {
            answer_lock(sessions, slot, 0, &mut frames);
        });
        Ok(frames.used())
    }

    /// The instrument's answer to a session, beside the session's unread synchronous bytes.
    pub fn answer(
        &mut self,
        session: u32,
        payload: &[u8],
        end: bool,
        shown: &[u8],
        out: &mut [u8],
    ) -> Result<Answered, Refusal> {
        if out.len() < OUTPUT {
            return Err(Refusal::ShortBuffer);
        }
        let session = self
            .sessions
            .iter_mut()
            .flatten()
            .find(|live| u32::from(live.number) == session)
            .ok_or(Refusal::NoSession)?;
        let number = session.answer_number().ok_or(Refusal::NothingAsked)?;
        if payload.len() > PAYLOAD || payload.len() as u64 > session.client_size {
            return Err(Refusal::AnswerTooLong);
        }
        let mut frames = Frames::new(out);
        let skips = self.connections[usize::from(session.synchronous)].skip > 0;
        if end && session.mode == Mode::Synchronized && !skips {
            if let Some(interrupting) = interrupting(shown) {
                session.interrupt(interrupting, &mut frames);
                return Ok(Answered {
                    withheld: true,
                    output: frames.used(),
                });
            }
        }
        session.answered(end);
        let kind = if end { kind::DATA_END } else { kind::DATA };
        frames.send_with(session.synchronous, kind, 0, number, payload);
        session.read(payload, self.status, &mut frames);
        Ok(Answered::sent(frames.used()))
    }

    pub fn status(&mut self, status: u8) {
        self.status = status;
    }

    /// How many requests wait, and the earliest deadline; 0 and 0 if none does.
    pub fn deadline(&self) -> (usize, u64) {
        let waiting = self.locks.waiting();
        let earliest = waiting.iter().map(|request| request.deadline).min();
        (waiting.len(), earliest.unwrap_or(0))
    }

    /// The largest payload that a live session's client takes.
    pub fn client_size(&self, session: u32) -> Result<u64, Refusal> {
        let mut sessions = self.sessions.iter().flatten();
        match sessions.find(|known| u32::from(known.number) == session) {
            Some(known) => Ok(known.client_size),
            None => Err(Refusal::NoSession),
        }
    }

    pub fn remote_local(&self) -> RemoteLocal {
        self.remote_local
    }

    /// What demand 3 compares with the lock model.
    pub fn lock_view(&self) -> LockView {
        let number = |slot: u8| self.session(slot).number;
        let live = (0..SESSIONS as u8).filter(|slot| self.sessions[usize::from(*slot)].is_some());
        let session = |slot: u8| SessionView {
            session: number(slot),
            synchronous: self.session(slot).synchronous,
            asynchronous: self.session(slot).asynchronous,
            exclusive: self.locks.exclusive_holder() == Some(slot),
            shared: self.locks.shared_string(slot).map(<[u8]>::to_vec),
            last: self.session(slot).last,
            standing: self.session(slot).standing.map(|release| StandingView {
                number: release.number,
                answer: release.lock as u8,
            }),
        };
        let waiting = |request: &Request| WaitingView {
            session: number(request.slot),
            string: request.string.as_bytes().to_vec(),
            deadline: request.deadline,
        };
        let mut sessions: Vec<_> = live.map(session).collect();
        sessions.sort_by_key(|view| view.session);
        LockView {
            clock: self.clock,
            sessions,
            waiting: self.locks.waiting().iter().map(waiting).collect(),
        }
    }

    /// The number of an open connection.
    #[inline]
    pub(crate) fn opened(&self, connection: u32) -> Result<u8, Refusal> {
        match self.connections.get(connection as usize) {
            Some(found) if found.role != Role::NotOpen => Ok(connection as u8),
            _ => Err(Refusal::Connection),
        }
    }

    pub(crate) fn session_of(&self, connection: u8) -> Option<u8> {
        match self.connections[usize::from(connection)].role {
            Role::Synchronous(slot) | Role::Asynchronous(slot) => Some(slot),
            Role::NotOpen | Role::Undecided => None,
        }
    }

    /// Closes as if cut: the connection, its session if it has one, and all that goes with it.
    /// Returns the session's number, or 0.
    pub(crate) fn close(&mut self, connection: u8, frames: &mut Frames) -> u16 {
        let slot = self.session_of(connection);
        self.connections[usize::from(connection)] = NOT_OPEN;
        let Some(slot) = slot else {
            return 0;
        };
        let Some(session) = self.sessions[usize::from(slot)].take() else {
            return 0;
        };
        self.connections[usize::from(session.synchronous)] = NOT_OPEN;
        if let Some(asynchronous) = session.asynchronous {
            self.connections[usize::from(asynchronous)] = NOT_OPEN;
        }
        self.locks.forget(slot);
        self.grant_pass(frames);
        session.number
    }

    pub(crate) fn grant_pass(&mut self, frames: &mut Frames) {
        let (sessions, clock) = (&mut self.sessions, self.clock);
        self.locks.grant_pass(|slot| {
            if let Some(session) = &mut sessions[usize::from(slot)] {
                session.granted(clock);
            }
            answer_lock(sessions, slot, 1, frames);
        });
    }
}

/// The number of the Data, DataEND or Trigger that unread bytes begin with; a whole header will do.
fn interrupting(shown: &[u8]) -> Option<u32> {
    let header = Header::read(shown.first_chunk()?)?;
    let interrupts = matches!(header.kind, kind::DATA | kind::DATA_END | kind::TRIGGER);
    interrupts.then_some(header.parameter)
}

/// Sends AsyncLockResponse on the slot's asynchronous connection.
pub(crate) fn answer_lock(
    sessions: &[Option<Session>; SESSIONS],
    slot: u8,
    code: u8,
    frames: &mut Frames,
) {
    if let Some(Session {
        asynchronous: Some(connection),
        ..
    }) = sessions[usize::from(slot)]
    {
        frames.send(connection, kind::LOCK_RESPONSE, code, 0);
    }
}
