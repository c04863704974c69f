//! Output, frame by frame.

use crate::message_type::MessageType;
use crate::numbers::Connection;
use crate::sizes::HEADER;

/// A message for one connection.
#[derive(Clone, Copy, Debug, PartialEq, Eq)]
#[must_use = "a frame is to be sent on its connection"]
pub struct Frame<'a> {
    /// Where it goes.
    pub connection: Connection,
    /// The type's number; [`Frame::message_type`] names it.
    pub kind: u8,
    /// The control code.
    pub code: u8,
    /// The message parameter.
    pub parameter: u32,
    /// What follows the header.
    pub payload: &'a [u8],
    /// The whole message, to be written to the connection as it is.
    pub message: &'a [u8],
}

impl Frame<'_> {
    /// The type; none if the standard has none of that number, which the library never sends.
    pub fn message_type(&self) -> Option<MessageType> {
        MessageType::from_number(self.kind)
    }
}

/// The frames of an output, in the order they are to be sent.
#[derive(Clone, Debug, Default)]
#[must_use = "frames are to be sent, each on its connection"]
pub struct Frames<'a> {
    rest: &'a [u8],
}

impl<'a> Frames<'a> {
    /// The frames of output that was kept: the bytes that [`Frames::as_bytes`] gave.
    pub fn new(output: &'a [u8]) -> Frames<'a> {
        Frames { rest: output }
    }

    /// The bytes not yet gone through.
    pub fn as_bytes(&self) -> &'a [u8] {
        self.rest
    }
}

impl<'a> Iterator for Frames<'a> {
    type Item = Frame<'a>;

    /// Ends at the first place that is no whole frame, which the library never writes.
    fn next(&mut self) -> Option<Frame<'a>> {
        let (connection, message) = self.rest.split_first()?;
        let (header, payload) = message.split_first_chunk::<HEADER>()?;
        let [b'H', b'S', kind, code, p0, p1, p2, p3, length @ ..] = *header else {
            return None;
        };
        let length = usize::try_from(u64::from_be_bytes(length)).ok()?;
        let payload = payload.get(..length)?;
        let (message, rest) = message.split_at(HEADER + length);
        self.rest = rest;
        Some(Frame {
            connection: Connection::new(u32::from(*connection)),
            kind,
            code,
            parameter: u32::from_be_bytes([p0, p1, p2, p3]),
            payload,
            message,
        })
    }
}
