//! The instrument behind the gateway: what one is, and the thread it works on.

mod block;
mod errors;
mod patience;
mod queue;
pub mod raw_socket;
pub mod scpi;
pub mod simulated;

pub use errors::{ErrorQueue, Fault};
pub use patience::Patience;
pub use queue::{Bench, Done, Job, Ticket};

/// Error queue not empty, in the status byte (SCPI: bit 2).
pub const ERROR_AVAILABLE: u8 = 4;

/// What a session wants of the instrument.
#[derive(Clone, Debug, PartialEq, Eq)]
pub enum Request {
    /// A whole message: commands and queries.
    Message(Vec<u8>),
    /// A trigger.
    Trigger,
    /// A message was dropped by the gateway; the instrument is to show it.
    Dropped(Fault),
}

/// Bytes that a request takes beside its text.
const REQUEST_COST: usize = 64;

impl Request {
    /// Bytes that it takes while it waits.
    pub fn cost(&self) -> usize {
        match self {
            Request::Message(text) => REQUEST_COST + text.len(),
            Request::Trigger | Request::Dropped(_) => REQUEST_COST,
        }
    }
}

/// What stands behind the gateway. One thread works it, one request after the other.
pub trait Instrument: Send {
    /// One line about it.
    fn name(&self) -> String;

    /// Whether a trigger is answered with a reading.
    fn trigger_answers(&self) -> bool;

    /// Does what is asked. Waiting is done through `patience`, which ends it when time is over or a
    /// device clear comes. An answer has no end of line. A fault is already in the error queue.
    fn perform(&mut self, request: &Request, patience: &Patience)
        -> Result<Option<Vec<u8>>, Fault>;

    /// The status byte now.
    fn status(&self) -> u8;
}

/// Whether a request may be answered: then the session's next message waits for it, so that no answer
/// can get another message's number.
pub fn asks(request: &Request, trigger_answers: bool) -> bool {
    match request {
        Request::Message(text) => scpi::asks(text),
        Request::Trigger => trigger_answers,
        Request::Dropped(_) => false,
    }
}
