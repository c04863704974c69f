//! What a message does once it has passed the checks.

use crate::delivery::Message;
use crate::limits::{PAYLOAD, SESSIONS};
use crate::locks::{LockString, Released, Request};
use crate::mode::Mode;
use crate::server::{answer_lock, RemoteLocal, Role, Server, Session, Standing};
use crate::watch::Watch;
use crate::wire::{fatal, kind, Frames};

/// Highest protocol version spoken: 1.0.
const VERSION: u16 = 0x0100;
const MESSAGE_AVAILABLE: u8 = 16;
/// Where every count of messages starts.
const FIRST: u32 = 0xffff_ff00;
/// What a release names if its program has sent no message yet.
const BEFORE_FIRST: u32 = 0xffff_fefe;

impl Server {
    pub(crate) fn session(&self, slot: u8) -> &Session {
        self.sessions[usize::from(slot)]
            .as_ref()
            .expect("a connection's slot is live")
    }

    pub(crate) fn session_mut(&mut self, slot: u8) -> &mut Session {
        self.sessions[usize::from(slot)]
            .as_mut()
            .expect("a connection's slot is live")
    }

    /// Returns the new SessionID.
    pub(crate) fn start_session(
        &mut self,
        connection: u8,
        slot: u8,
        parameter: u32,
        frames: &mut Frames,
    ) -> u16 {
        let number = self.next_number();
        self.last_issued = number;
        self.sessions[usize::from(slot)] = Some(Session {
            number,
            synchronous: connection,
            asynchronous: None,
            asked: None,
            message_available: false,
            in_clear: false,
            client_size: PAYLOAD as u64,
            last: None,
            standing: None,
            mode: self.prefers,
            count: FIRST,
            sent: None,
            rmt_expected: false,
            expected: FIRST,
            granted_at: 0,
            grants: 0,
            watch: Watch::Off,
            tripped: false,
            record: None,
        });
        self.connections[usize::from(connection)].role = Role::Synchronous(slot);
        let version = VERSION.min((parameter >> 16) as u16);
        let reply = u32::from(version) << 16 | u32::from(number);
        let prefers = self.prefers as u8;
        frames.send(connection, kind::INITIALIZE_RESPONSE, prefers, reply);
        number
    }

    /// The next after the last issued, from 65,535 back to 1, passing over live ones.
    fn next_number(&self) -> u16 {
        let mut number = self.last_issued;
        loop {
            number = if number == u16::MAX { 1 } else { number + 1 };
            let mut live = self.sessions.iter().flatten();
            if !live.any(|session| session.number == number) {
                return number;
            }
        }
    }

    /// Joins a half-open session; Err is the code of a FatalError.
    pub(crate) fn async_initialize(
        &mut self,
        connection: u8,
        parameter: u32,
        frames: &mut Frames,
    ) -> Result<u16, u8> {
        let named = |session: &Session| {
            session.asynchronous.is_none() && u32::from(session.number) == parameter
        };
        let slot = (0..SESSIONS)
            .find(|&slot| self.sessions[slot].as_ref().is_some_and(named))
            .ok_or(fatal::BAD_INITIALIZATION)? as u8;
        self.session_mut(slot).asynchronous = Some(connection);
        self.connections[usize::from(connection)].role = Role::Asynchronous(slot);
        let vendor = u32::from(self.vendor);
        frames.send(connection, kind::ASYNC_INITIALIZE_RESPONSE, 0, vendor);
        Ok(self.session(slot).number)
    }

    /// Data, DataEND or Trigger: the host passes it on. A release that stands for it takes effect.
    #[inline]
    pub(crate) fn data_or_trigger(&mut self, message: &Message, frames: &mut Frames) {
        let header = message.header;
        let session = self.session_mut(message.slot);
        if session.mode == Mode::Synchronized {
            let rmt_delivered = header.code == 1;
            if std::mem::take(&mut session.rmt_expected) != rmt_delivered {
                session.interrupt(header.parameter, frames);
            }
        }
        if header.code == 1 {
            session.message_available = false;
        }
        if header.kind != kind::DATA {
            session.asked = Some(header.parameter);
        }
        session.last = Some(header.parameter);
        let named = |standing: &mut Standing| standing.number == header.parameter;
        if let Some(standing) = session.standing.take_if(named) {
            self.release(message.slot, standing.lock, frames);
            self.grant_pass(frames);
        }
    }

    pub(crate) fn clear_complete(&mut self, message: &Message, frames: &mut Frames) {
        let asked = Mode::of_code(message.header.code);
        let session = self.session_mut(message.slot);
        session.in_clear = false;
        session.mode = asked;
        frames.send(message.connection, kind::CLEAR_ACKNOWLEDGE, asked as u8, 0);
    }

    pub(crate) fn act_asynchronous(&mut self, message: &Message, frames: &mut Frames) {
        match message.header.kind {
            kind::LOCK if message.header.code == 1 => self.request_lock(message, frames),
            kind::LOCK => self.release_lock(message, frames),
            kind::REMOTE_LOCAL => {
                self.remote_local.change(message.header.code);
                frames.send(message.connection, kind::REMOTE_LOCAL_RESPONSE, 0, 0);
            }
            kind::MAXIMUM_SIZE => self.maximum_size(message, frames),
            kind::DEVICE_CLEAR => self.device_clear(message, frames),
            kind::STATUS_QUERY => self.status_query(message, frames),
            _ => self.lock_info(message, frames),
        }
    }

    fn request_lock(&mut self, message: &Message, frames: &mut Frames) {
        let slot = message.slot;
        let timeout = message.header.parameter;
        let answer = match LockString::new(message.payload) {
            None => 3,
            Some(string) => {
                let stands = self.session(slot).standing.is_some();
                let holds = self.locks.holds_kind_of(slot, &string);
                if stands || holds || self.locks.is_waiting(slot) {
                    3
                } else if self.locks.may_grant(slot, &string) {
                    let clock = self.clock;
                    self.locks.grant(slot, &string);
                    self.session_mut(slot).granted(clock);
                    1
                } else if timeout == 0 {
                    0
                } else {
                    self.locks.wait(Request {
                        slot,
                        string,
                        deadline: self.clock + u64::from(timeout),
                    });
                    return;
                }
            }
        };
        frames.send(message.connection, kind::LOCK_RESPONSE, answer, 0);
    }

    /// Acts at once if the message it names is the last that acted; otherwise it stands.
    fn release_lock(&mut self, message: &Message, frames: &mut Frames) {
        let number = message.header.parameter;
        let lock = self.locks.to_release(message.slot);
        let session = self.session_mut(message.slot);
        if session.standing.is_some() || lock == Released::Nothing {
            let nothing = Released::Nothing as u8;
            frames.send(message.connection, kind::LOCK_RESPONSE, nothing, 0);
        } else if session.last.unwrap_or(BEFORE_FIRST) == number {
            self.release(message.slot, lock, frames);
            self.grant_pass(frames);
        } else {
            session.standing = Some(Standing { number, lock });
        }
    }

    /// A release takes effect: the lock is free, and its session is told. The grant pass is the
    /// caller's: in a device clear the acknowledgement comes before it.
    fn release(&mut self, slot: u8, lock: Released, frames: &mut Frames) {
        self.locks.free(slot, lock);
        answer_lock(&self.sessions, slot, lock as u8, frames);
    }

    fn maximum_size(&mut self, message: &Message, frames: &mut Frames) {
        let size = message.payload.try_into().map_or(0, u64::from_be_bytes);
        self.session_mut(message.slot).client_size = size;
        let ours = (PAYLOAD as u64).to_be_bytes();
        frames.send_with(message.connection, kind::MAXIMUM_SIZE_RESPONSE, 0, 0, &ours);
    }

    fn device_clear(&mut self, message: &Message, frames: &mut Frames) {
        if self.locks.withdraw(message.slot) {
            answer_lock(&self.sessions, message.slot, 0, frames);
        }
        let session = self.session_mut(message.slot);
        session.in_clear = true;
        session.asked = None;
        session.message_available = false;
        session.last = None;
        session.count = FIRST;
        session.sent = None;
        session.rmt_expected = false;
        session.expected = FIRST;
        let standing = session.standing.take();
        if let Some(standing) = standing {
            self.release(message.slot, standing.lock, frames);
        }
        let prefers = self.prefers as u8;
        frames.send(
            message.connection,
            kind::DEVICE_CLEAR_ACKNOWLEDGE,
            prefers,
            0,
        );
        if standing.is_some() {
            self.grant_pass(frames);
        }
    }

    fn status_query(&mut self, message: &Message, frames: &mut Frames) {
        let status = self.status & !MESSAGE_AVAILABLE;
        let session = self.session_mut(message.slot);
        if message.header.code == 1 {
            session.message_available = false;
            session.rmt_expected = false;
        }
        let available = if session.available(message.header.parameter) {
            MESSAGE_AVAILABLE
        } else {
            0
        };
        frames.send(
            message.connection,
            kind::STATUS_RESPONSE,
            status | available,
            0,
        );
    }

    fn lock_info(&mut self, message: &Message, frames: &mut Frames) {
        let exclusive = u8::from(self.locks.exclusive_holder().is_some());
        let holders = self.locks.holders();
        frames.send(
            message.connection,
            kind::LOCK_INFO_RESPONSE,
            exclusive,
            holders,
        );
    }
}

impl RemoteLocal {
    /// IVI-6.1's codes 0 to 6, as 01 lists them.
    fn change(&mut self, code: u8) {
        match code {
            0 | 2 => *self = RemoteLocal::default(),
            1 => self.enable = true,
            3 => (self.enable, self.remote) = (true, true),
            4 => (self.enable, self.lockout) = (true, true),
            5 => (self.enable, self.lockout, self.remote) = (true, true, true),
            _ => self.remote = false,
        }
    }
}
