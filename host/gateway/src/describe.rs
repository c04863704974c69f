//! Messages in words, for the log: the kit's words on the library's frames.

use hislip::{Frame, Frames};
use query::words;

pub use query::words::{acted_on, label, text};

/// Errors and FatalErrors of an output: what the log tells beside the event itself.
pub fn told(frame: &Frame) -> Option<String> {
    words::told(frame.kind, frame.code)
}

/// Output kept beyond the server's buffer.
pub fn kept(frames: Frames) -> Vec<u8> {
    frames.as_bytes().to_vec()
}
