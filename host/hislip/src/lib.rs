//! A safe wrapper over the proved HiSLIP server library.
//!
//! A [`Server`] owns the memory that the C interface wants lent and an output buffer. The eight
//! events are methods, or values of [`Event`] for [`Server::apply`]. Four questions change nothing:
//! [`Server::deadline`], [`Server::client_size`], [`Server::holders`] and [`Server::readings`].
//!
//! ```
//! use hislip::{MessageType, Mode, Outcome, Server};
//!
//! let mut server = Server::new(*b"AA", Mode::Synchronized);
//! server.open(0)?;
//! let initialize = b"HS\x00\x00\x01\x00AA\0\0\0\0\0\0\0\0";
//! let delivery = server.deliver(0, initialize)?;
//! assert_eq!(delivery.outcome, Outcome::ActedOn { session: 1.into() });
//! for frame in delivery.frames {
//!     assert_eq!(frame.message_type(), Some(MessageType::InitializeResponse));
//!     assert_eq!((frame.connection, frame.parameter), (0.into(), 0x0100_0001));
//! }
//! # Ok::<(), hislip::Refusal>(())
//! ```
//!
//! `examples/` has four whole programs. Memory, threads and what the proofs say of each call are told
//! in `include/hislip_server.h`.

#![deny(missing_docs)]

mod event;
mod frame;
mod holder;
mod journal;
mod message_type;
mod mode;
mod numbers;
mod outcome;
mod patterns;
mod readings;
mod refusal;
mod server;
mod sizes;
pub mod sys;

pub use event::{Answer, Event};
pub use frame::{Frame, Frames};
pub use holder::Holder;
pub use journal::{Journal, Kept};
pub use message_type::{type_name, MessageType};
pub use mode::Mode;
pub use numbers::{Connection, SessionId};
pub use outcome::{Answered, Delivery, Outcome};
pub use patterns::BadList;
pub use readings::{Readings, Watch};
pub use refusal::Refusal;
pub use server::{Deadline, Server};
pub use sizes::{
    CLOCK_MAX, CONNECTIONS, HEADER, LOCK_STRING, NOT_ALLOWED, OUTPUT, PATTERN, PATTERNS, PAYLOAD,
    SESSIONS, STRING_BYTES, WORDS,
};

/// The archive that this build links, by its path: for pages of results that name what they are about.
pub const ARCHIVE: &str = env!("HISLIP_ARCHIVE");
