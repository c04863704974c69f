//! What a message does once it has passed the checks.

use reference::limits::PAYLOAD;
use reference::wire::{fatal, kind};
use reference::Mode;

use crate::delivery::Message;
use crate::frames::Frames;
use crate::locks::{Released, Requested};
use crate::server::{RemoteLocal, Role, Server, Session, Standing, FIRST};

/// Highest protocol version spoken: 1.0.
const VERSION: u16 = 0x0100;
const MESSAGE_AVAILABLE: u8 = 16;
/// What a release names if no message has acted.
const BEFORE_FIRST: u32 = 0xffff_fefe;

impl Server {
    /// A message on the asynchronous channel.
    pub(crate) fn act(&mut self, message: &Message, frames: &mut Frames) {
        match message.kind {
            kind::STATUS_QUERY => self.status_query(message, frames),
            kind::LOCK if message.code == 1 => self.request_lock(message, frames),
            kind::LOCK => self.release_lock(message, frames),
            kind::REMOTE_LOCAL => {
                self.remote_local.change(message.code);
                frames.send(message.connection, kind::REMOTE_LOCAL_RESPONSE, 0, 0);
            }
            kind::MAXIMUM_SIZE => self.maximum_size(message, frames),
            kind::DEVICE_CLEAR => self.device_clear(message, frames),
            _ => self.lock_info(message, frames),
        }
    }

    fn status_query(&mut self, message: &Message, frames: &mut Frames) {
        let session = &mut self.sessions[usize::from(message.slot)];
        if message.code == 1 {
            session.message_available = false;
            session.rmt_expected = false;
        }
        let available = match session.mode {
            Mode::Synchronized => session.message_available,
            Mode::Overlap => session.sent.is_some_and(|sent| sent != message.parameter),
        };
        let mut status = self.status & !MESSAGE_AVAILABLE;
        if available {
            status |= MESSAGE_AVAILABLE;
        }
        frames.send(message.connection, kind::STATUS_RESPONSE, status, 0);
    }

    fn request_lock(&mut self, message: &Message, frames: &mut Frames) {
        if self.sessions[usize::from(message.slot)].standing.is_some() {
            let wrong = Requested::Wrong as u8;
            return frames.send(message.connection, kind::LOCK_RESPONSE, wrong, 0);
        }
        let timeout = u64::from(message.parameter);
        let deadline = (timeout > 0).then_some(self.clock + timeout);
        let requested =
            self.locks
                .request(message.slot, message.payload, deadline, message.connection);
        if requested == Requested::Granted {
            self.sessions[usize::from(message.slot)].granted(self.clock);
        }
        if requested != Requested::Waits {
            frames.send(message.connection, kind::LOCK_RESPONSE, requested as u8, 0);
        }
    }

    fn release_lock(&mut self, message: &Message, frames: &mut Frames) {
        let session = &mut self.sessions[usize::from(message.slot)];
        let lock = self.locks.to_release(message.slot);
        if session.standing.is_some() || lock == Released::Nothing {
            let nothing = Released::Nothing as u8;
            frames.send(message.connection, kind::LOCK_RESPONSE, nothing, 0);
        } else if session.last.unwrap_or(BEFORE_FIRST) == message.parameter {
            self.locks.free(message.slot, lock);
            frames.send(message.connection, kind::LOCK_RESPONSE, lock as u8, 0);
            self.grant_pass(frames);
        } else {
            let number = message.parameter;
            session.standing = Some(Standing { number, lock });
        }
    }

    /// A standing release takes effect, and is answered; true if there was one. Grants come after it.
    pub(crate) fn end_standing(&mut self, slot: u8, frames: &mut Frames) -> bool {
        let session = &mut self.sessions[usize::from(slot)];
        let (Some(standing), Some(answered)) = (session.standing.take(), session.asynchronous)
        else {
            return false;
        };
        self.locks.free(slot, standing.lock);
        frames.send(answered, kind::LOCK_RESPONSE, standing.lock as u8, 0);
        true
    }

    fn lock_info(&mut self, message: &Message, frames: &mut Frames) {
        let exclusive = u8::from(self.locks.exclusive_held());
        let holders = self.locks.holders();
        frames.send(
            message.connection,
            kind::LOCK_INFO_RESPONSE,
            exclusive,
            holders,
        );
    }

    fn maximum_size(&mut self, message: &Message, frames: &mut Frames) {
        let size = message.payload.try_into().map_or(0, u64::from_be_bytes);
        self.sessions[usize::from(message.slot)].client_size = size;
        let ours = (PAYLOAD as u64).to_be_bytes();
        frames.send_with(message.connection, kind::MAXIMUM_SIZE_RESPONSE, 0, 0, &ours);
    }

    fn device_clear(&mut self, message: &Message, frames: &mut Frames) {
        if self.locks.withdraw(message.slot) {
            frames.send(message.connection, kind::LOCK_RESPONSE, 0, 0);
        }
        let session = &mut self.sessions[usize::from(message.slot)];
        session.in_clear = true;
        session.asked = None;
        session.message_available = false;
        session.last = None;
        (session.count, session.sent) = (FIRST, None);
        session.rmt_expected = false;
        session.expected = FIRST;
        let released = self.end_standing(message.slot, frames);
        let prefers = self.prefers as u8;
        let acknowledged = kind::DEVICE_CLEAR_ACKNOWLEDGE;
        frames.send(message.connection, acknowledged, prefers, 0);
        if released {
            self.grant_pass(frames);
        }
    }

    /// Returns the new SessionID; Err is the code of a FatalError.
    pub(crate) fn initialize(
        &mut self,
        connection: u8,
        parameter: u32,
        sub_address: &[u8],
        frames: &mut Frames,
    ) -> Result<u16, u8> {
        if !sub_address.is_empty() && sub_address != b"hislip0" {
            return Err(fatal::BAD_INITIALIZATION);
        }
        let mut slots = self.sessions.iter();
        let slot = slots.position(|session| session.number == 0);
        let slot = slot.ok_or(fatal::TOO_MANY_CLIENTS)?;
        let number = self.next_number();
        self.last_issued = number;
        self.sessions[slot] = Session::new(number, connection, self.prefers);
        let here = &mut self.connections[usize::from(connection)];
        (here.role, here.slot) = (Role::HalfOpen, slot as u8);
        let version = VERSION.min((parameter >> 16) as u16);
        let reply = u32::from(version) << 16 | u32::from(number);
        let prefers = self.prefers as u8;
        frames.send(connection, kind::INITIALIZE_RESPONSE, prefers, reply);
        Ok(number)
    }

    /// The next after the last issued, from 65,535 back to 1, passing over live ones.
    fn next_number(&self) -> u16 {
        let mut number = self.last_issued;
        loop {
            number = if number == u16::MAX { 1 } else { number + 1 };
            if self.sessions.iter().all(|live| live.number != number) {
                return number;
            }
        }
    }

    /// Joins a half-open session; returns its number. Err is the code of a FatalError.
    pub(crate) fn async_initialize(
        &mut self,
        connection: u8,
        parameter: u32,
        payload: &[u8],
        frames: &mut Frames,
    ) -> Result<u16, u8> {
        let named = |session: &Session| {
            session.number != 0
                && session.asynchronous.is_none()
                && u32::from(session.number) == parameter
        };
        let slot = self.sessions.iter().position(named);
        let slot = slot.filter(|_| payload.is_empty());
        let slot = slot.ok_or(fatal::BAD_INITIALIZATION)?;
        let session = &mut self.sessions[slot];
        session.asynchronous = Some(connection);
        self.connections[usize::from(session.synchronous)].role = Role::Synchronous;
        let here = &mut self.connections[usize::from(connection)];
        (here.role, here.slot) = (Role::Asynchronous, slot as u8);
        let vendor = u32::from(self.vendor);
        frames.send(connection, kind::ASYNC_INITIALIZE_RESPONSE, 0, vendor);
        Ok(session.number)
    }
}

impl RemoteLocal {
    /// IVI-6.1's codes 0 to 6, as 01 lists them.
    fn change(&mut self, code: u8) {
        match code {
            0 | 2 => *self = RemoteLocal::default(),
            1 => self.enable = true,
            3 => (self.enable, self.remote) = (true, true),
            4 => (self.enable, self.lockout) = (true, true),
            5 => (self.enable, self.lockout, self.remote) = (true, true, true),
            _ => self.remote = false,
        }
    }
}
