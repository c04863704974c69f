//! Faults by SCPI's numbers, and the queue that `SYSTem:ERRor?` empties.

use std::collections::VecDeque;

use super::ERROR_AVAILABLE;

const LONGEST_QUEUE: usize = 20;

/// What went wrong at the instrument.
#[derive(Clone, Copy, Debug, PartialEq, Eq)]
pub enum Fault {
    /// A parameter of another type than the command takes.
    DataType,
    /// A parameter is missing.
    MissingParameter,
    /// No such command.
    UndefinedHeader,
    /// A parameter beyond what the meter takes.
    OutOfRange,
    /// A message above what the gateway keeps, or an answer above what the client takes.
    TooMuchData,
    /// No reading is there to be fetched.
    Stale,
    /// The instrument cannot be reached.
    Missing,
    /// Errors were lost.
    QueueOverflow,
    /// The instrument took too long.
    TimedOut,
    /// A device clear came; no error.
    Cleared,
}

impl Fault {
    fn number(self) -> i32 {
        match self {
            Fault::DataType => -104,
            Fault::MissingParameter => -109,
            Fault::UndefinedHeader => -113,
            Fault::OutOfRange => -222,
            Fault::TooMuchData => -223,
            Fault::Stale => -230,
            Fault::Missing => -241,
            Fault::QueueOverflow => -350,
            Fault::TimedOut => -365,
            Fault::Cleared => 0,
        }
    }

    fn words(self) -> &'static str {
        match self {
            Fault::DataType => "Data type error",
            Fault::MissingParameter => "Missing parameter",
            Fault::UndefinedHeader => "Undefined header",
            Fault::OutOfRange => "Data out of range",
            Fault::TooMuchData => "Too much data",
            Fault::Stale => "Data corrupt or stale",
            Fault::Missing => "Hardware missing",
            Fault::QueueOverflow => "Queue overflow",
            Fault::TimedOut => "Time out error",
            Fault::Cleared => "Device clear",
        }
    }
}

/// As `SYSTem:ERRor?` answers it.
impl std::fmt::Display for Fault {
    fn fmt(&self, f: &mut std::fmt::Formatter<'_>) -> std::fmt::Result {
        write!(f, "{:+},\"{}\"", self.number(), self.words())
    }
}

/// Errors that wait to be read, oldest first, as `SYSTem:ERRor?` tells them.
#[derive(Default)]
pub struct ErrorQueue(VecDeque<Fault>);

impl ErrorQueue {
    /// The status byte: whether an error waits to be read.
    pub fn status(&self) -> u8 {
        match self.is_empty() {
            true => 0,
            false => ERROR_AVAILABLE,
        }
    }

    /// A full queue's last place says that errors were lost.
    pub fn push(&mut self, fault: Fault) {
        if self.0.len() < LONGEST_QUEUE {
            self.0.push_back(fault);
        } else if let Some(last) = self.0.back_mut() {
            *last = Fault::QueueOverflow;
        }
    }

    /// No error waits.
    pub fn is_empty(&self) -> bool {
        self.0.is_empty()
    }

    /// `*CLS`.
    pub fn clear(&mut self) {
        self.0.clear();
    }

    /// The oldest error, taken out, or no error.
    pub fn take_oldest(&mut self) -> String {
        match self.0.pop_front() {
            Some(fault) => fault.to_string(),
            None => "+0,\"No error\"".into(),
        }
    }
}
