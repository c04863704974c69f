//! Readings under watch: what the host sets for a session, and what it may ask.

use crate::numbers::SessionId;
use crate::refusal::Refusal;
use crate::server::Server;
use crate::sys;

/// Which readings of a session the host wants a service request for, as [`Server::watch`] sets it.
///
/// Readings are those of answers that are an IEEE 488.2 definite length block of 32-bit floats.
#[derive(Clone, Copy, Debug, Default, PartialEq)]
pub enum Watch {
    /// None.
    #[default]
    Off,
    /// Those strictly above a limit, and what is not a number.
    Above {
        /// Any number, also an infinite one.
        limit: f32,
    },
    /// Those strictly below `low` or strictly above `high`, and what is not a number.
    Outside {
        /// Any number, also an infinite one.
        low: f32,
        /// The same, and not below `low`.
        high: f32,
    },
}

/// The readings of a session that were numbers, as [`Server::readings`] tells it.
#[derive(Clone, Copy, Debug, PartialEq)]
pub struct Readings {
    /// The last one sent.
    pub last: f32,
    /// The lowest; of equal ones the first.
    pub lowest: f32,
    /// The highest; of equal ones the first.
    pub highest: f32,
}

impl Server {
    /// Sets the watch over a session's readings. It has not tripped then, whatever the one before did: the
    /// first answer with a reading beyond it is followed by one AsyncServiceRequest in that answer's
    /// frames. Refused: no live session of that number, then a limit that is not a number, or low above
    /// high.
    ///
    /// # Panics
    ///
    /// As [`Server`] says: never, with the proved archive.
    pub fn watch(&mut self, session: impl Into<SessionId>, watch: Watch) -> Result<(), Refusal> {
        let session = session.into().into();
        let (words, strings) = self.memory();
        // SAFETY: as for `open`.
        let done = unsafe {
            match watch {
                Watch::Off => sys::hislip_watch_off(words, strings, session),
                Watch::Above { limit } => sys::hislip_watch_above(words, strings, session, limit),
                Watch::Outside { low, high } => {
                    sys::hislip_watch_outside(words, strings, session, low, high)
                }
            }
        };
        Refusal::check(done.refusal)
    }

    /// The last, lowest and highest reading that a session was sent since it opened, watch or none; None
    /// if there is none yet. Refused: no live session of that number. Asking changes nothing.
    ///
    /// # Panics
    ///
    /// As [`Server`] says: never, with the proved archive.
    pub fn readings(&self, session: impl Into<SessionId>) -> Result<Option<Readings>, Refusal> {
        let (words, strings) = self.shown();
        // SAFETY: as for `deadline`.
        let told = unsafe { sys::hislip_readings(words, strings, session.into().into()) };
        Refusal::check(told.refusal)?;
        Ok((told.seen != 0).then_some(Readings {
            last: told.last,
            lowest: told.lowest,
            highest: told.highest,
        }))
    }
}
