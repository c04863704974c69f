//! What can go wrong, as one line and as an exit status.

use std::fmt;
use std::io::{Error, ErrorKind};

use crate::names;
use crate::Message;

#[derive(Debug)]
pub enum Trouble {
    CannotConnect {
        to: String,
        why: String,
    },
    TimedOut {
        waiting_for: &'static str,
    },
    Error {
        code: u8,
        text: String,
    },
    FatalError {
        code: u8,
        text: String,
    },
    Closed,
    /// Bytes that are no message.
    Malformed(String),
    NotGranted(String),
    NotExpected(String),
    Connection(Error),
    /// An answer came and could not be printed.
    NotPrinted(Error),
}

impl Trouble {
    /// What a failed wait for `waiting_for` means.
    pub fn of(error: Error, waiting_for: &'static str) -> Trouble {
        match error.kind() {
            ErrorKind::WouldBlock | ErrorKind::TimedOut => Trouble::TimedOut { waiting_for },
            ErrorKind::UnexpectedEof | ErrorKind::ConnectionReset | ErrorKind::BrokenPipe => {
                Trouble::Closed
            }
            ErrorKind::InvalidData => Trouble::Malformed(error.to_string()),
            _ => Trouble::Connection(error),
        }
    }

    /// An Error, a FatalError, or a message that does not belong here.
    pub fn told(message: Message, waiting_for: &'static str) -> Trouble {
        let text = String::from_utf8_lossy(&message.payload).into_owned();
        let code = message.code;
        match message.kind {
            names::ERROR => Trouble::Error { code, text },
            names::FATAL_ERROR => Trouble::FatalError { code, text },
            other => {
                let name = names::of_type(other);
                Trouble::NotExpected(format!("{name} while waiting for {waiting_for}"))
            }
        }
    }

    /// 1 for a lock not granted and for what has no number of its own; 2 is a wrong command line.
    pub fn exit_status(&self) -> u8 {
        match self {
            Trouble::NotGranted(_) | Trouble::NotExpected(_) => 1,
            Trouble::CannotConnect { .. } => 3,
            Trouble::TimedOut { .. } => 4,
            Trouble::Error { .. } => 5,
            Trouble::FatalError { .. } => 6,
            Trouble::Closed | Trouble::Malformed(_) | Trouble::Connection(_) => 7,
            Trouble::NotPrinted(_) => 8,
        }
    }
}

impl fmt::Display for Trouble {
    fn fmt(&self, f: &mut fmt::Formatter<'_>) -> fmt::Result {
        let said = |text: &String| match text.is_empty() {
            true => String::new(),
            false => format!(" ({text})"),
        };
        match self {
            Trouble::CannotConnect { to, why } => write!(f, "cannot connect to {to}: {why}"),
            Trouble::TimedOut { waiting_for } => write!(f, "time-out: no {waiting_for}"),
            Trouble::Error { code, text } => {
                let name = names::of_error(*code);
                write!(f, "Error {code}: {name}{}", said(text))
            }
            Trouble::FatalError { code, text } => {
                let name = names::of_fatal_error(*code);
                write!(f, "FatalError {code}: {name}{}", said(text))
            }
            Trouble::Closed => write!(f, "the server closed the connection"),
            Trouble::Malformed(what) => write!(f, "the server does not speak HiSLIP: {what}"),
            Trouble::NotGranted(why) => write!(f, "{why}"),
            Trouble::NotExpected(what) => write!(f, "not expected: {what}"),
            Trouble::Connection(error) => write!(f, "connection lost: {error}"),
            Trouble::NotPrinted(error) => write!(f, "the answer cannot be printed: {error}"),
        }
    }
}

impl std::error::Error for Trouble {}
