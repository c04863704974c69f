//! What the host is told.

/// Why a call was turned away; the discriminants are 01's numbers.
#[derive(Clone, Copy, Debug, PartialEq, Eq)]
pub enum Refusal {
    Connection = 1,
    AlreadyOpen = 2,
    ClockBackwards = 3,
    ClockTooHigh = 4,
    NothingAsked = 5,
    AnswerTooLong = 6,
    ShortBuffer = 7,
    NoSession = 8,
    ListTooShort = 9,
    /// A watch's limit is not a number, or low is above high.
    BadLimits = 10,
    ///
    BadPattern = 11,
    TooManyPatterns = 12,
}

/// What became of a delivery.
#[derive(Clone, Copy, Debug, PartialEq, Eq)]
pub enum Outcome {
    MoreNeeded = 0,
    Skipped = 1,
    Held = 2,
    Ignored = 3,
    ErrorSent = 4,
    Closed = 5,
    ActedOn = 6,
}

/// An instrument's answer that was not refused: sent, or withheld.
#[derive(Clone, Copy, Debug, PartialEq, Eq)]
pub struct Answered {
    pub withheld: bool,
    pub output: usize,
}

impl Answered {
    pub const fn sent(output: usize) -> Answered {
        Answered {
            withheld: false,
            output,
        }
    }
}

/// Why a list of patterns was refused. A bad pattern is told by its number and the place in it, both from 0;
/// otherwise they are 0.
#[derive(Clone, Copy, Debug, PartialEq, Eq)]
pub struct RefusedList {
    pub refusal: Refusal,
    pub pattern: usize,
    pub place: usize,
}

/// An accepted delivery: `session` is 0 unless it closed one or was acted on, `missing` 0 unless more is
/// needed.
#[derive(Clone, Copy, Debug, PartialEq, Eq)]
pub struct Delivery {
    pub outcome: Outcome,
    pub session: u16,
    pub taken: usize,
    pub output: usize,
    pub missing: u64,
}

impl Delivery {
    pub const HELD: Delivery = Delivery::of(Outcome::Held, 0, 0);

    pub const fn of(outcome: Outcome, session: u16, taken: usize) -> Delivery {
        Delivery {
            outcome,
            session,
            taken,
            output: 0,
            missing: 0,
        }
    }

    /// So many bytes are missing.
    pub const fn more_needed(missing: u64) -> Delivery {
        Delivery {
            missing,
            ..Delivery::of(Outcome::MoreNeeded, 0, 0)
        }
    }
}
