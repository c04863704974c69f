//! Why a call was turned away.

use std::error::Error;
use std::fmt;

/// Why a call was turned away. It changed nothing: neither the server nor a lent byte.
#[derive(Clone, Copy, Debug, PartialEq, Eq, Hash)]
pub enum Refusal {
    /// 1: the connection number is above 63; for a delivery or a cut, also not open.
    Connection,
    /// 2: the connection is already open.
    AlreadyOpen,
    /// 3: the clock is below the last reading.
    ClockBackwards,
    /// 4: the clock is above [`crate::CLOCK_MAX`].
    ClockTooHigh,
    /// 5: the session has asked nothing.
    NothingAsked,
    /// 6: the answer is above [`crate::PAYLOAD`] bytes or above the client's size.
    AnswerTooLong,
    /// 7: the output buffer is under [`crate::OUTPUT`] bytes.
    ShortBuffer,
    /// 8: no live session has that number.
    NoSession,
    /// 9: the list of rows is shorter than the holders of locks. [`crate::Server::holders`] lends one that
    /// is long enough.
    ListTooShort,
    /// 10: a watch's limit is not a number, or low is above high.
    BadLimits,
    /// 11: a text of the list is no command pattern. [`crate::BadList`] says where.
    BadPattern,
    /// 12: the list has more than [`crate::PATTERNS`] command patterns.
    TooManyPatterns,
}

impl Refusal {
    /// All of them, in the order of their numbers.
    pub const ALL: [Refusal; 12] = [
        Refusal::Connection,
        Refusal::AlreadyOpen,
        Refusal::ClockBackwards,
        Refusal::ClockTooHigh,
        Refusal::NothingAsked,
        Refusal::AnswerTooLong,
        Refusal::ShortBuffer,
        Refusal::NoSession,
        Refusal::ListTooShort,
        Refusal::BadLimits,
        Refusal::BadPattern,
        Refusal::TooManyPatterns,
    ];

    /// The number in the C interface, 1 to 12.
    pub fn number(self) -> u64 {
        self as u64 + 1
    }

    /// The cause, as `hislip_names.h` has it.
    pub fn reason(self) -> &'static str {
        match self {
            Refusal::Connection => "the connection number is above 63, or not open",
            Refusal::AlreadyOpen => "the connection is already open",
            Refusal::ClockBackwards => "the clock is below the last reading",
            Refusal::ClockTooHigh => "the clock is above 2^62",
            Refusal::NothingAsked => "the session has asked nothing",
            Refusal::AnswerTooLong => "the answer is above 1,024 bytes or above the client's size",
            Refusal::ShortBuffer => "the output buffer is under 2,048 bytes",
            Refusal::NoSession => "no live session has that number",
            Refusal::ListTooShort => "the list of rows is shorter than the holders",
            Refusal::BadLimits => "a limit is not a number, or low is above high",
            Refusal::BadPattern => "a text of the list is no command pattern",
            Refusal::TooManyPatterns => "the list has more than 32 command patterns",
        }
    }

    /// Ok for 0, the refusal for 1 to 12. Panics at any other number, as `Server` documents.
    pub(crate) fn check(number: u64) -> Result<(), Refusal> {
        match number {
            0 => Ok(()),
            1..=12 => Err(Refusal::ALL[number as usize - 1]),
            _ => panic!("the library gave refusal {number}, which does not exist"),
        }
    }
}

impl fmt::Display for Refusal {
    fn fmt(&self, f: &mut fmt::Formatter<'_>) -> fmt::Result {
        write!(f, "refusal {}: {}", self.number(), self.reason())
    }
}

impl Error for Refusal {}
