//! The journal (02: day book), after 02's Q-7 and docs/JOURNAL.md: entries in lent bytes, the layout of an
//! entry's body, and events that are kept as they happen. Its author had seen the proved definitions.

pub mod crc;
pub mod events;
pub mod framing;
pub mod keep;
pub mod layout;
pub mod reader;
pub mod writer;

pub use keep::{keep, Keeping};
pub use layout::Recorded;
pub use writer::{Kept, Writer};
