//! A message: sixteen bytes of header, then the payload; numbers big endian.

use std::io::{Error, ErrorKind, Read, Result};

pub const HEADER: usize = 16;
/// Longest payload this client takes; it tells the server so.
pub const LONGEST: u64 = 1 << 20;

#[derive(Clone, Debug, PartialEq, Eq)]
pub struct Message {
    pub kind: u8,
    pub code: u8,
    pub parameter: u32,
    pub payload: Vec<u8>,
}

/// The bytes of a message.
pub fn bytes(kind: u8, code: u8, parameter: u32, payload: &[u8]) -> Vec<u8> {
    let mut bytes = Vec::with_capacity(HEADER + payload.len());
    bytes.extend([b'H', b'S', kind, code]);
    bytes.extend(parameter.to_be_bytes());
    bytes.extend((payload.len() as u64).to_be_bytes());
    bytes.extend(payload);
    bytes
}

impl Message {
    /// The next message of a stream. Bytes that are no message are `InvalidData`.
    pub fn read(stream: &mut impl Read) -> Result<Message> {
        let mut header = [0; HEADER];
        stream.read_exact(&mut header)?;
        let [b'H', b'S', kind, code, p0, p1, p2, p3, length @ ..] = header else {
            return Err(Error::new(ErrorKind::InvalidData, "no HiSLIP header"));
        };
        let length = u64::from_be_bytes(length);
        if length > LONGEST {
            return Err(Error::new(ErrorKind::InvalidData, "a payload too long"));
        }
        let mut payload = vec![0; length as usize];
        stream.read_exact(&mut payload)?;
        Ok(Message {
            kind,
            code,
            parameter: u32::from_be_bytes([p0, p1, p2, p3]),
            payload,
        })
    }
}
