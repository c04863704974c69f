//! Servers that are wrong in one place each. A conformance run that passes one of them is worth
//! nothing; `conform selftest` tries them all.

use reference::{Fresh, Subject};

/// One wrong server.
pub struct Fault {
    pub name: &'static str,
    /// Which promise it breaks.
    pub breaks: &'static str,
    /// Demand 3 and the one-sided checks must find it without a second server to compare with.
    pub alone: bool,
    pub new: fn(Fresh) -> Box<dyn Subject>,
}

include!(concat!(env!("OUT_DIR"), "/faults.rs"));
