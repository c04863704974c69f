//! The rules of document 01, and of 02's requests that have landed, a second time, in ordinary Rust.
//!
//! Written from the papers alone, so that it can disagree with the proved library; `journal` and `verifier` less
//! strictly so, as they say themselves. The server that the
//! library's speed is compared with is `ordinary`.
//!
//! `lock_model` is 01's ledger and shares no rule with `server`; `history` is 01's shortened list; `journal`
//! is 02's day book and `verifier` its judge.

#![forbid(unsafe_code)]

pub mod acts;
pub mod commands;
pub mod compose;
pub mod delivery;
pub mod event;
pub mod grammar;
pub mod history;
pub mod holders;
pub mod journal;
pub mod limits;
pub mod lock_model;
pub mod lock_view;
pub mod locks;
pub mod mode;
#[cfg(test)]
mod most_grants;
pub mod readings;
pub mod reply;
pub mod server;
pub mod spelling;
pub mod subject;
pub mod verifier;
pub mod watch;
pub mod watching;
pub mod wire;

pub use event::{Counted, Deadline, Event, Readings, Reply, Row, Size};
pub use mode::{Fresh, Mode};
pub use reply::{Answered, Delivery, Outcome, Refusal, RefusedList};
pub use server::Server;
pub use subject::Subject;
pub use watch::{Single, Watch};
