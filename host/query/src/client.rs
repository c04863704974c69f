//! One session: two connections, message numbers, RMT-delivered, and the transactions.

use std::net::TcpStream;
use std::time::Duration;

use crate::channel::{connect, drop_until, receive, send, wait_at_most, Result};
use crate::message::{bytes, LONGEST};
use crate::names::*;
use crate::{Message, Trouble};

/// The first message number; each next is two more, wrapping.
pub const FIRST: u32 = 0xffff_ff00;
const STEP: u32 = 2;
/// The most recent number sent, if none was sent yet.
pub const BEFORE_FIRST: u32 = FIRST.wrapping_sub(STEP);
/// Bit 0 of the codes that tell a mode.
const OVERLAP: u8 = 1;
/// A Data message whose question the server could not name.
const NO_NUMBER: u32 = 0xffff_ffff;
/// Protocol version 1.0, client vendor "XX".
const HELLO: u32 = 0x0100_5858;
/// What a server must take before sizes are exchanged.
const SMALLEST_SIZE: u64 = 256;

pub struct Settings {
    pub to: String,
    pub sub_address: String,
    /// Longest wait for an answer.
    pub patience: Duration,
    /// Overlap mode is asked for, also of a server that prefers synchronized.
    pub overlap: bool,
}

pub struct Client {
    sync: TcpStream,
    asynchronous: TcpStream,
    pub session: u16,
    patience: Duration,
    /// Longest payload the server takes.
    size: u64,
    next: u32,
    /// The most recent number sent.
    pub sent: u32,
    /// An answer's end was delivered, and no message has told the server so yet.
    rmt_delivered: bool,
    /// AsyncInterrupted came: answers are dropped until Interrupted comes.
    interrupted: bool,
    /// Overlap mode: answers come in order with numbers of the server's own.
    overlap: bool,
    /// Device clears ask for overlap mode, whatever the server prefers.
    wants_overlap: bool,
    /// In overlap mode, the number of the most recent answer delivered.
    delivered: u32,
}

impl Client {
    /// The initialization transaction, then the exchange of sizes.
    pub fn open(settings: &Settings) -> Result<Client> {
        let patience = settings.patience;
        let mut sync = connect(&settings.to, patience)?;
        wait_at_most(&sync, patience)?;
        let hello = bytes(INITIALIZE, 0, HELLO, settings.sub_address.as_bytes());
        send(&mut sync, &hello)?;
        let opened = receive(&mut sync, INITIALIZE_RESPONSE, "InitializeResponse")?;
        let session = opened.parameter as u16;
        let mut asynchronous = connect(&settings.to, patience)?;
        wait_at_most(&asynchronous, patience)?;
        send(
            &mut asynchronous,
            &bytes(ASYNC_INITIALIZE, 0, session.into(), b""),
        )?;
        receive(
            &mut asynchronous,
            ASYNC_INITIALIZE_RESPONSE,
            "AsyncInitializeResponse",
        )?;
        let mut client = Client {
            sync,
            asynchronous,
            session,
            patience,
            size: SMALLEST_SIZE,
            next: FIRST,
            sent: BEFORE_FIRST,
            rmt_delivered: false,
            interrupted: false,
            overlap: opened.code & OVERLAP != 0,
            wants_overlap: settings.overlap,
            delivered: BEFORE_FIRST,
        };
        client.exchange_sizes()?;
        client.enter_mode()?;
        Ok(client)
    }

    /// A mode changes in a device clear alone (3.1.2, 6.12).
    fn enter_mode(&mut self) -> Result<()> {
        if self.wants_overlap && !self.overlap {
            self.clear()?;
        }
        match self.wants_overlap && !self.overlap {
            true => Err(Trouble::NotGranted("overlap mode not granted".into())),
            false => Ok(()),
        }
    }

    fn exchange_sizes(&mut self) -> Result<()> {
        let ours = LONGEST.to_be_bytes();
        let kinds = (
            ASYNC_MAXIMUM_MESSAGE_SIZE,
            ASYNC_MAXIMUM_MESSAGE_SIZE_RESPONSE,
        );
        let theirs = self.ask(kinds, 0, 0, &ours, "AsyncMaximumMessageSizeResponse")?;
        if let Ok(size) = <[u8; 8]>::try_from(&theirs.payload[..]) {
            self.size = u64::from_be_bytes(size).clamp(1, LONGEST);
        }
        Ok(())
    }

    /// Takes the next number, and RMT-delivered if it is to be told.
    fn send_numbered(&mut self, kind: u8, payload: &[u8]) -> Result<()> {
        self.sent = self.next;
        self.next = self.next.wrapping_add(STEP);
        let rmt_delivered = self.take_rmt_delivered();
        send(
            &mut self.sync,
            &bytes(kind, rmt_delivered, self.sent, payload),
        )
    }

    /// 1 in the first message after an answer's end was delivered, else 0.
    fn take_rmt_delivered(&mut self) -> u8 {
        u8::from(std::mem::take(&mut self.rmt_delivered))
    }

    /// A whole message to the instrument: Data as large as the server takes, then DataEND.
    pub fn write(&mut self, text: &[u8]) -> Result<()> {
        let mut pieces = text.chunks(self.size as usize).peekable();
        if pieces.peek().is_none() {
            return self.send_numbered(DATA_END, b"");
        }
        while let Some(piece) = pieces.next() {
            let last = pieces.peek().is_none();
            self.send_numbered(if last { DATA_END } else { DATA }, piece)?;
        }
        Ok(())
    }

    /// A whole answer. In synchronized mode Data and DataEND of another question are dropped with what
    /// came before them (3.1.2, rules 1 and 2).
    pub fn read(&mut self) -> Result<Vec<u8>> {
        let mut answer = Vec::new();
        loop {
            let message = Message::read(&mut self.sync);
            let message = message.map_err(|error| Trouble::of(error, "answer"))?;
            let number = message.parameter;
            let named = number == self.sent || (message.kind == DATA && number == NO_NUMBER);
            let ours = self.overlap || (named && !self.interrupted);
            if matches!(message.kind, DATA | DATA_END) {
                self.delivered = number;
            }
            match message.kind {
                DATA if ours => answer.extend(message.payload),
                DATA_END if ours => {
                    answer.extend(message.payload);
                    self.rmt_delivered = true;
                    return Ok(answer);
                }
                DATA | DATA_END => answer.clear(),
                INTERRUPTED => {
                    answer.clear();
                    self.end_interruption()?;
                }
                _ => return Err(Trouble::told(message, "answer")),
            }
        }
    }

    /// Interrupted came: nothing more is sent before AsyncInterrupted has come too.
    fn end_interruption(&mut self) -> Result<()> {
        if !std::mem::take(&mut self.interrupted) {
            let what = "AsyncInterrupted";
            // A service request may stand before it.
            drop_until(&mut self.asynchronous, ASYNC_INTERRUPTED, what)?;
        }
        Ok(())
    }

    pub fn query(&mut self, text: &[u8]) -> Result<Vec<u8>> {
        self.write(text)?;
        self.read()
    }

    pub fn trigger(&mut self) -> Result<()> {
        self.send_numbered(TRIGGER, b"")
    }

    /// Sends on the asynchronous channel; `kinds` are the request's and the response's types.
    fn ask(
        &mut self,
        kinds: (u8, u8),
        code: u8,
        parameter: u32,
        payload: &[u8],
        what: &'static str,
    ) -> Result<Message> {
        send(
            &mut self.asynchronous,
            &bytes(kinds.0, code, parameter, payload),
        )?;
        loop {
            let message = Message::read(&mut self.asynchronous);
            let message = message.map_err(|error| Trouble::of(error, what))?;
            match message.kind {
                kind if kind == kinds.1 => return Ok(message),
                // These may come at any time and are not answered.
                ASYNC_SERVICE_REQUEST => {}
                ASYNC_INTERRUPTED => self.interrupted = true,
                _ => return Err(Trouble::told(message, what)),
            }
        }
    }

    /// The status byte. In overlap mode the query names the last answer delivered (3.2.2).
    pub fn status(&mut self) -> Result<u8> {
        let kinds = (ASYNC_STATUS_QUERY, ASYNC_STATUS_RESPONSE);
        let rmt_delivered = self.take_rmt_delivered();
        let number = if self.overlap {
            self.delivered
        } else {
            self.sent
        };
        let answer = self.ask(kinds, rmt_delivered, number, b"", "AsyncStatusResponse")?;
        Ok(answer.code)
    }

    /// Asks for a lock, shared with a string, exclusive without, and waits at most so long for it.
    pub fn lock(&mut self, string: &[u8], milliseconds: u32) -> Result<()> {
        let longest = self.patience + Duration::from_millis(milliseconds.into());
        wait_at_most(&self.asynchronous, longest)?;
        let kinds = (ASYNC_LOCK, ASYNC_LOCK_RESPONSE);
        let answer = self.ask(kinds, 1, milliseconds, string, "AsyncLockResponse")?;
        wait_at_most(&self.asynchronous, self.patience)?;
        match answer.code {
            1 => Ok(()),
            0 => Err(Trouble::NotGranted("lock not granted in time".into())),
            code => {
                let line = format!("lock refused (AsyncLockResponse {code})");
                Err(Trouble::NotGranted(line))
            }
        }
    }

    /// Releases; the release names the last message sent. The kind of lock that is free now.
    pub fn unlock(&mut self) -> Result<&'static str> {
        let kinds = (ASYNC_LOCK, ASYNC_LOCK_RESPONSE);
        let answer = self.ask(kinds, 0, self.sent, b"", "AsyncLockResponse")?;
        match answer.code {
            1 => Ok("exclusive"),
            2 => Ok("shared"),
            _ => Err(Trouble::NotGranted("no lock to release".into())),
        }
    }

    /// Whether an exclusive lock is held, and how many sessions hold a lock.
    pub fn lock_info(&mut self) -> Result<(bool, u32)> {
        let kinds = (ASYNC_LOCK_INFO, ASYNC_LOCK_INFO_RESPONSE);
        let answer = self.ask(kinds, 0, 0, b"", "AsyncLockInfoResponse")?;
        Ok((answer.code != 0, answer.parameter))
    }

    /// Remote/local control by VISA's codes 0 to 6.
    pub fn remote(&mut self, code: u8) -> Result<()> {
        let kinds = (ASYNC_REMOTE_LOCAL_CONTROL, ASYNC_REMOTE_LOCAL_RESPONSE);
        self.ask(kinds, code, self.sent, b"", "AsyncRemoteLocalResponse")?;
        Ok(())
    }

    /// Tells the server on both channels why this client leaves (6.2).
    pub fn leave(&mut self, fatal_error: u8) {
        let message = bytes(FATAL_ERROR, fatal_error, 0, b"");
        // The connection ends with or without it.
        let _ = send(&mut self.sync, &message);
        let _ = send(&mut self.asynchronous, &message);
    }

    /// Device clear, steps 2 to 8: everything but the two acknowledgements is dropped meanwhile. The
    /// mode that the server prefers is asked for, or overlap where it is wanted.
    pub fn clear(&mut self) -> Result<()> {
        send(
            &mut self.asynchronous,
            &bytes(ASYNC_DEVICE_CLEAR, 0, 0, b""),
        )?;
        let what = "AsyncDeviceClearAcknowledge";
        let prefers = drop_until(&mut self.asynchronous, ASYNC_DEVICE_CLEAR_ACKNOWLEDGE, what)?;
        let asked = (prefers.code & OVERLAP) | u8::from(self.wants_overlap);
        send(&mut self.sync, &bytes(DEVICE_CLEAR_COMPLETE, asked, 0, b""))?;
        let what = "DeviceClearAcknowledge";
        let granted = drop_until(&mut self.sync, DEVICE_CLEAR_ACKNOWLEDGE, what)?;
        self.overlap = granted.code & OVERLAP != 0;
        (self.next, self.sent) = (FIRST, BEFORE_FIRST);
        self.delivered = BEFORE_FIRST;
        (self.rmt_delivered, self.interrupted) = (false, false);
        Ok(())
    }
}
