//! One delivery, check by check, in 01's order.

use reference::limits::{OUTPUT, PAYLOAD};
use reference::wire::{error, fatal, kind, HEADER};
use reference::{Mode, Refusal, Reply};

use crate::frames::Frames;
use crate::replies::{acted_on, closed, error_sent, held, ignored, more_needed, refused, skipped};
use crate::server::{Connection, Role, Server, Session};

/// Vendor types begin here.
const VENDOR: u8 = 128;

/// A whole message of permitted size on a channel of an established session.
pub struct Message<'a> {
    pub connection: u8,
    pub slot: u8,
    pub kind: u8,
    pub code: u8,
    pub parameter: u32,
    pub payload: &'a [u8],
}

impl Message<'_> {
    pub fn size(&self) -> usize {
        HEADER + self.payload.len()
    }

    pub fn error(&self, code: u8, out: &mut [u8; OUTPUT]) -> Reply {
        send_error(self.connection, code, self.size(), out)
    }
}

impl Server {
    /// The refusals, then checks 1 and 2. A call of its own, like the library's.
    #[inline(never)]
    pub fn deliver(&mut self, connection: u32, bytes: &[u8], out: &mut [u8]) -> Reply {
        let Some(out) = out.first_chunk_mut::<OUTPUT>() else {
            return refused(Refusal::ShortBuffer);
        };
        let Some(here) = self.connections.get_mut(connection as usize) else {
            return refused(Refusal::Connection);
        };
        if here.role == Role::NotOpen {
            return refused(Refusal::Connection);
        }
        if bytes.is_empty() {
            let header = HEADER as u64;
            return more_needed(if here.skip > 0 { here.skip } else { header });
        }
        if here.skip > 0 {
            let taken = here.skip.min(bytes.len() as u64);
            here.skip -= taken;
            return skipped(taken);
        }
        let connection = connection as u8;
        match bytes.split_first_chunk::<HEADER>() {
            None => more_needed((HEADER - bytes.len()) as u64),
            Some((header, rest)) if header[..2] == *b"HS" => {
                self.check(connection, header, rest, out)
            }
            Some(_) => self.fatal(connection, fatal::BAD_HEADER, out),
        }
    }

    /// Checks 3 to 5.
    fn check(
        &mut self,
        connection: u8,
        header: &[u8; HEADER],
        rest: &[u8],
        out: &mut [u8; OUTPUT],
    ) -> Reply {
        let (kind, code) = (header[2], header[3]);
        let parameter = u32::from_be_bytes([header[4], header[5], header[6], header[7]]);
        let length = u64::from_be_bytes(*header.last_chunk().expect("eight bytes"));
        let here = &mut self.connections[usize::from(connection)];
        let Connection { role, slot, .. } = *here;
        match role {
            Role::Synchronous | Role::Asynchronous => {}
            Role::HalfOpen => {
                return self.fatal(connection, fatal::CHANNELS_NOT_ESTABLISHED, out);
            }
            _ => return self.open_session(connection, kind, parameter, length, rest, out),
        }
        // The length may be near 2^64: nothing is added to it before it is compared.
        if length > PAYLOAD as u64 {
            here.skip = length;
            if role == Role::Synchronous && is_counted(kind) {
                let session = &mut self.sessions[usize::from(slot)];
                let _ = !session.in_clear && session.in_step(parameter);
            }
            return send_error(connection, error::TOO_LARGE, HEADER, out);
        }
        let Some(payload) = rest.get(..length as usize) else {
            return more_needed(length - rest.len() as u64);
        };
        let message = Message {
            connection,
            slot,
            kind,
            code,
            parameter,
            payload,
        };
        self.whole(role, &message, out)
    }

    /// Check 6, then the rest by channel.
    fn whole(&mut self, role: Role, message: &Message, out: &mut [u8; OUTPUT]) -> Reply {
        match message.kind {
            kind::FATAL_ERROR => {
                let mut frames = Frames::new(out);
                let session = self.close(message.connection, &mut frames);
                closed(session, frames.used())
            }
            kind::ERROR => ignored(message.size()),
            _ if role == Role::Synchronous => self.synchronous(message, out),
            _ => self.asynchronous(message, out),
        }
    }

    /// Checks 7 to 11 on the synchronous channel.
    fn synchronous(&mut self, message: &Message, out: &mut [u8; OUTPUT]) -> Reply {
        let session = &mut self.sessions[usize::from(message.slot)];
        if session.in_clear && message.kind != kind::CLEAR_COMPLETE {
            return ignored(message.size());
        }
        match message.kind {
            kind::DATA | kind::DATA_END | kind::TRIGGER => self.counted(message, out),
            kind::CLEAR_COMPLETE => {
                if !session.in_clear || !message.payload.is_empty() {
                    return message.error(error::UNIDENTIFIED, out);
                }
                session.in_clear = false;
                session.mode = Mode::of_code(message.code);
                let granted = session.mode as u8;
                let mut frames = Frames::new(out);
                frames.send(message.connection, kind::CLEAR_ACKNOWLEDGE, granted, 0);
                acted_on(session.number, message.size(), frames.used())
            }
            kind::INITIALIZE => self.fatal(message.connection, fatal::BAD_INITIALIZATION, out),
            VENDOR.. => message.error(error::VENDOR_MESSAGE, out),
            _ => message.error(error::MESSAGE_TYPE, out),
        }
    }

    /// Checks 9 to 11 of Data, DataEND and Trigger, with the number expected and the commands allowed.
    #[inline]
    fn counted(&mut self, message: &Message, out: &mut [u8; OUTPUT]) -> Reply {
        if !self.locks.access(message.slot) {
            return held();
        }
        let session = &mut self.sessions[usize::from(message.slot)];
        if !session.in_step(message.parameter) {
            return message.error(error::UNIDENTIFIED, out);
        }
        if message.code > 1 {
            return message.error(error::CONTROL_CODE, out);
        }
        if message.kind == kind::TRIGGER && !message.payload.is_empty() {
            return message.error(error::UNIDENTIFIED, out);
        }
        if let (kind::DATA_END, Some(allowed)) = (message.kind, &self.allowed) {
            if !allowed.allows(message.payload) {
                return message.error(error::NOT_ALLOWED, out);
            }
        }
        let mut frames = Frames::new(out);
        let freed = session.act(message, &mut frames);
        let number = session.number;
        if freed {
            self.end_standing(message.slot, &mut frames);
            self.grant_pass(&mut frames);
        }
        acted_on(number, message.size(), frames.used())
    }

    /// Checks 8, 10 and 11 on the asynchronous channel; nothing is held or cleared there.
    fn asynchronous(&mut self, message: &Message, out: &mut [u8; OUTPUT]) -> Reply {
        let highest = match message.kind {
            kind::STATUS_QUERY | kind::LOCK => 1,
            kind::REMOTE_LOCAL => 6,
            kind::MAXIMUM_SIZE | kind::DEVICE_CLEAR | kind::LOCK_INFO => u8::MAX,
            kind::ASYNC_INITIALIZE => {
                return self.fatal(message.connection, fatal::BAD_INITIALIZATION, out);
            }
            VENDOR.. => return message.error(error::VENDOR_MESSAGE, out),
            _ => return message.error(error::MESSAGE_TYPE, out),
        };
        if message.code > highest {
            return message.error(error::CONTROL_CODE, out);
        }
        let fits = match message.kind {
            kind::LOCK => message.code == 1 || message.payload.is_empty(),
            kind::MAXIMUM_SIZE => message.payload.len() == 8,
            _ => message.payload.is_empty(),
        };
        if !fits {
            return message.error(error::UNIDENTIFIED, out);
        }
        let mut frames = Frames::new(out);
        self.act(message, &mut frames);
        let session = &self.sessions[usize::from(message.slot)];
        acted_on(session.number, message.size(), frames.used())
    }

    /// What is left of the checks for a connection without a session.
    fn open_session(
        &mut self,
        connection: u8,
        kind: u8,
        parameter: u32,
        length: u64,
        rest: &[u8],
        out: &mut [u8; OUTPUT],
    ) -> Reply {
        let starts = matches!(kind, kind::INITIALIZE | kind::ASYNC_INITIALIZE);
        if !starts || length > PAYLOAD as u64 {
            return self.fatal(connection, fatal::BAD_INITIALIZATION, out);
        }
        let Some(payload) = rest.get(..length as usize) else {
            return more_needed(length - rest.len() as u64);
        };
        let mut frames = Frames::new(out);
        let started = if kind == kind::INITIALIZE {
            self.initialize(connection, parameter, payload, &mut frames)
        } else {
            self.async_initialize(connection, parameter, payload, &mut frames)
        };
        match started {
            Ok(session) => acted_on(session, HEADER + payload.len(), frames.used()),
            Err(code) => self.fatal(connection, code, out),
        }
    }

    /// FatalError to each connection of the session, synchronous first, or to this one alone; then all
    /// of it closes as if cut.
    #[cold]
    fn fatal(&mut self, connection: u8, code: u8, out: &mut [u8; OUTPUT]) -> Reply {
        let mut frames = Frames::new(out);
        let Connection { role, slot, .. } = self.connections[usize::from(connection)];
        if role == Role::Undecided {
            frames.send(connection, kind::FATAL_ERROR, code, 0);
        } else {
            let session = &self.sessions[usize::from(slot)];
            frames.send(session.synchronous, kind::FATAL_ERROR, code, 0);
            if let Some(asynchronous) = session.asynchronous {
                frames.send(asynchronous, kind::FATAL_ERROR, code, 0);
            }
        }
        let session = self.close(connection, &mut frames);
        closed(session, frames.used())
    }
}

impl Session {
    /// Data, DataEND or Trigger: true if a standing release has waited for it.
    fn act(&mut self, message: &Message, frames: &mut Frames) -> bool {
        let rmt_delivered = message.code == 1;
        if self.rmt_expected != rmt_delivered && self.mode == Mode::Synchronized {
            self.interrupt(message.parameter, frames);
        }
        self.rmt_expected = false;
        if rmt_delivered {
            self.message_available = false;
        }
        if message.kind != kind::DATA {
            self.asked = Some(message.parameter);
        }
        self.last = Some(message.parameter);
        matches!(self.standing, Some(named) if named.number == message.parameter)
    }
}

/// Messages that carry a program's count.
fn is_counted(kind: u8) -> bool {
    matches!(kind, kind::DATA | kind::DATA_END | kind::TRIGGER)
}

#[cold]
fn send_error(connection: u8, code: u8, taken: usize, out: &mut [u8; OUTPUT]) -> Reply {
    let mut frames = Frames::new(out);
    frames.send(connection, kind::ERROR, code, 0);
    error_sent(taken, frames.used())
}
