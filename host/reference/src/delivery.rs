//! One delivery, check by check, in 01's order.

use crate::limits::{OUTPUT, PAYLOAD, SESSIONS};
use crate::reply::{Delivery, Outcome, Refusal};
use crate::server::{Role, Server};
use crate::wire::{class, error, fatal, kind, Channel, Class, Frames, Header, HEADER};

/// A whole message of permitted size on a channel of an established session.
pub(crate) struct Message<'a> {
    pub connection: u8,
    pub slot: u8,
    pub header: Header,
    pub payload: &'a [u8],
}

impl Message<'_> {
    fn size(&self) -> usize {
        HEADER + self.payload.len()
    }
}

impl Server {
    pub fn deliver(
        &mut self,
        connection: u32,
        bytes: &[u8],
        out: &mut [u8],
    ) -> Result<Delivery, Refusal> {
        if out.len() < OUTPUT {
            return Err(Refusal::ShortBuffer);
        }
        let connection = self.opened(connection)?;
        let mut frames = Frames::new(out);
        let mut delivery = self.check(connection, bytes, &mut frames);
        delivery.output = frames.used();
        Ok(delivery)
    }

    /// Checks 1 and 2, then by the connection's role.
    fn check(&mut self, connection: u8, bytes: &[u8], frames: &mut Frames) -> Delivery {
        let here = &mut self.connections[usize::from(connection)];
        if bytes.is_empty() {
            let missing = if here.skip > 0 {
                here.skip
            } else {
                HEADER as u64
            };
            return Delivery::more_needed(missing);
        }
        if here.skip > 0 {
            let taken = here.skip.min(bytes.len() as u64);
            here.skip -= taken;
            return Delivery::of(Outcome::Skipped, 0, taken as usize);
        }
        let Some(first) = bytes.first_chunk::<HEADER>() else {
            return Delivery::more_needed((HEADER - bytes.len()) as u64);
        };
        let Some(header) = Header::read(first) else {
            return self.fatal(connection, fatal::BAD_HEADER, frames);
        };
        let (channel, slot) = match here.role {
            Role::Synchronous(slot) => {
                if self.half_open(slot) {
                    return self.fatal(connection, fatal::CHANNELS_NOT_ESTABLISHED, frames);
                }
                (Channel::Synchronous, slot)
            }
            Role::Asynchronous(slot) => (Channel::Asynchronous, slot),
            Role::Undecided | Role::NotOpen => {
                return self.check_undecided(connection, bytes, header, frames);
            }
        };
        self.check_established(channel, connection, slot, bytes, header, frames)
    }

    /// Check 3, and what is left of the others for a connection without a role.
    fn check_undecided(
        &mut self,
        connection: u8,
        bytes: &[u8],
        header: Header,
        frames: &mut Frames,
    ) -> Delivery {
        let starts = matches!(header.kind, kind::INITIALIZE | kind::ASYNC_INITIALIZE);
        if !starts || header.length > PAYLOAD as u64 {
            return self.fatal(connection, fatal::BAD_INITIALIZATION, frames);
        }
        let size = HEADER + header.length as usize;
        let Some(payload) = bytes.get(HEADER..size) else {
            return Delivery::more_needed((size - bytes.len()) as u64);
        };
        let started = if header.kind == kind::INITIALIZE {
            self.initialize(connection, header.parameter, payload, frames)
        } else if payload.is_empty() {
            self.async_initialize(connection, header.parameter, frames)
        } else {
            Err(fatal::BAD_INITIALIZATION)
        };
        match started {
            Ok(session) => Delivery::of(Outcome::ActedOn, session, size),
            Err(code) => self.fatal(connection, code, frames),
        }
    }

    /// Checks 4 to 6, then the rest by channel. A too large message moves the count too, if it is in step.
    fn check_established(
        &mut self,
        channel: Channel,
        connection: u8,
        slot: u8,
        bytes: &[u8],
        header: Header,
        frames: &mut Frames,
    ) -> Delivery {
        if header.length > PAYLOAD as u64 {
            // Compared before anything is added to it: the length may be near 2^64.
            self.connections[usize::from(connection)].skip = header.length;
            frames.send(connection, kind::ERROR, error::TOO_LARGE, 0);
            let session = self.session_mut(slot);
            if channel == Channel::Synchronous && is_counted(header.kind) && !session.in_clear {
                session.in_step(header.parameter);
            }
            return Delivery::of(Outcome::ErrorSent, 0, HEADER);
        }
        let Some(payload) = bytes.get(HEADER..HEADER + header.length as usize) else {
            return Delivery::more_needed(HEADER as u64 + header.length - bytes.len() as u64);
        };
        let message = Message {
            connection,
            slot,
            header,
            payload,
        };
        match (header.kind, channel) {
            (kind::FATAL_ERROR, _) => {
                Delivery::of(Outcome::Closed, self.close(connection, frames), 0)
            }
            (kind::ERROR, _) => Delivery::of(Outcome::Ignored, 0, message.size()),
            (_, Channel::Synchronous) => self.check_synchronous(&message, frames),
            (_, Channel::Asynchronous) => self.check_asynchronous(&message, frames),
        }
    }

    /// Checks 7 and 8 on the synchronous channel, and the others for DeviceClearComplete.
    fn check_synchronous(&mut self, message: &Message, frames: &mut Frames) -> Delivery {
        let kind = message.header.kind;
        let in_clear = self.session(message.slot).in_clear;
        if in_clear && kind != kind::CLEAR_COMPLETE {
            return Delivery::of(Outcome::Ignored, 0, message.size());
        }
        if let Some(code) = class_error(Channel::Synchronous, kind) {
            return error_sent(message, code, frames);
        }
        match kind {
            kind::INITIALIZE => self.fatal(message.connection, fatal::BAD_INITIALIZATION, frames),
            kind::CLEAR_COMPLETE => {
                if !message.payload.is_empty() || !in_clear {
                    return error_sent(message, error::UNIDENTIFIED, frames);
                }
                self.clear_complete(message, frames);
                self.acted_on(message)
            }
            _ => self.check_counted(message, frames),
        }
    }

    /// Checks 9 to 11 of Data, DataEND and Trigger, with Q-10's between 9 and 10 and Q-12's behind the code.
    fn check_counted(&mut self, message: &Message, frames: &mut Frames) -> Delivery {
        let (kind, code) = (message.header.kind, message.header.code);
        if !self.locks.access(message.slot) {
            return Delivery::HELD;
        }
        if !self.in_step(message) {
            return error_sent(message, error::UNIDENTIFIED, frames);
        }
        if code > 1 {
            return error_sent(message, error::CONTROL_CODE, frames);
        }
        if kind == kind::TRIGGER && !message.payload.is_empty() {
            return error_sent(message, error::UNIDENTIFIED, frames);
        }
        if kind == kind::DATA_END && !self.allows(message.payload) {
            return error_sent(message, error::NOT_ALLOWED, frames);
        }
        self.data_or_trigger(message, frames);
        self.acted_on(message)
    }

    /// Checks 8, 10 and 11 on the asynchronous channel; nothing is held or cleared there.
    fn check_asynchronous(&mut self, message: &Message, frames: &mut Frames) -> Delivery {
        let Header { kind, code, .. } = message.header;
        if let Some(code) = class_error(Channel::Asynchronous, kind) {
            return error_sent(message, code, frames);
        }
        if kind == kind::ASYNC_INITIALIZE {
            return self.fatal(message.connection, fatal::BAD_INITIALIZATION, frames);
        }
        let highest = match kind {
            kind::LOCK | kind::STATUS_QUERY => 1,
            kind::REMOTE_LOCAL => 6,
            _ => u8::MAX,
        };
        if code > highest {
            return error_sent(message, error::CONTROL_CODE, frames);
        }
        let fits = match kind {
            kind::LOCK => code == 1 || message.payload.is_empty(),
            kind::MAXIMUM_SIZE => message.payload.len() == 8,
            _ => message.payload.is_empty(),
        };
        if !fits {
            return error_sent(message, error::UNIDENTIFIED, frames);
        }
        self.act_asynchronous(message, frames);
        self.acted_on(message)
    }

    /// the number is the one expected, which then moves on.
    fn in_step(&mut self, message: &Message) -> bool {
        let session = self.session_mut(message.slot);
        session.in_step(message.header.parameter)
    }

    fn acted_on(&self, message: &Message) -> Delivery {
        let number = self.session(message.slot).number;
        Delivery::of(Outcome::ActedOn, number, message.size())
    }

    /// FatalError to each connection of the session, synchronous first, or to this one alone;
    /// then all of it closes as if cut.
    fn fatal(&mut self, connection: u8, code: u8, frames: &mut Frames) -> Delivery {
        match self.session_of(connection) {
            Some(slot) => {
                let session = *self.session(slot);
                frames.send(session.synchronous, kind::FATAL_ERROR, code, 0);
                if let Some(asynchronous) = session.asynchronous {
                    frames.send(asynchronous, kind::FATAL_ERROR, code, 0);
                }
            }
            None => frames.send(connection, kind::FATAL_ERROR, code, 0),
        }
        Delivery::of(Outcome::Closed, self.close(connection, frames), 0)
    }

    fn half_open(&self, slot: u8) -> bool {
        self.session(slot).asynchronous.is_none()
    }

    /// Initialize; Err is the code of a FatalError.
    fn initialize(
        &mut self,
        connection: u8,
        parameter: u32,
        sub_address: &[u8],
        frames: &mut Frames,
    ) -> Result<u16, u8> {
        if !sub_address.is_empty() && sub_address != b"hislip0" {
            return Err(fatal::BAD_INITIALIZATION);
        }
        let slot = (0..SESSIONS)
            .find(|&slot| self.sessions[slot].is_none())
            .ok_or(fatal::TOO_MANY_CLIENTS)?;
        Ok(self.start_session(connection, slot as u8, parameter, frames))
    }
}

/// Messages that carry a program's count.
fn is_counted(kind: u8) -> bool {
    matches!(kind, kind::DATA | kind::DATA_END | kind::TRIGGER)
}

fn class_error(channel: Channel, kind: u8) -> Option<u8> {
    match class(channel, kind) {
        Class::ActedOn => None,
        Class::Vendor => Some(error::VENDOR_MESSAGE),
        Class::Unrecognised => Some(error::MESSAGE_TYPE),
    }
}

fn error_sent(message: &Message, code: u8, frames: &mut Frames) -> Delivery {
    frames.send(message.connection, kind::ERROR, code, 0);
    Delivery::of(Outcome::ErrorSent, 0, message.size())
}
