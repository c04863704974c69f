//! The message on the wire: reading a header, writing frames, the class of each type.

/// Bytes before the payload.
pub const HEADER: usize = 16;

/// Message types a server reads or writes (IVI-6.1 Table 4).
pub mod kind {
    pub const INITIALIZE: u8 = 0;
    pub const INITIALIZE_RESPONSE: u8 = 1;
    pub const FATAL_ERROR: u8 = 2;
    pub const ERROR: u8 = 3;
    pub const LOCK: u8 = 4;
    pub const LOCK_RESPONSE: u8 = 5;
    pub const DATA: u8 = 6;
    pub const DATA_END: u8 = 7;
    pub const CLEAR_COMPLETE: u8 = 8;
    pub const CLEAR_ACKNOWLEDGE: u8 = 9;
    pub const REMOTE_LOCAL: u8 = 10;
    pub const REMOTE_LOCAL_RESPONSE: u8 = 11;
    pub const TRIGGER: u8 = 12;
    pub const INTERRUPTED: u8 = 13;
    pub const ASYNC_INTERRUPTED: u8 = 14;
    pub const MAXIMUM_SIZE: u8 = 15;
    pub const MAXIMUM_SIZE_RESPONSE: u8 = 16;
    pub const ASYNC_INITIALIZE: u8 = 17;
    pub const ASYNC_INITIALIZE_RESPONSE: u8 = 18;
    pub const DEVICE_CLEAR: u8 = 19;
    pub const SERVICE_REQUEST: u8 = 20;
    pub const STATUS_QUERY: u8 = 21;
    pub const STATUS_RESPONSE: u8 = 22;
    pub const DEVICE_CLEAR_ACKNOWLEDGE: u8 = 23;
    pub const LOCK_INFO: u8 = 24;
    pub const LOCK_INFO_RESPONSE: u8 = 25;
}

/// Control codes of FatalError.
pub mod fatal {
    pub const BAD_HEADER: u8 = 1;
    pub const CHANNELS_NOT_ESTABLISHED: u8 = 2;
    pub const BAD_INITIALIZATION: u8 = 3;
    pub const TOO_MANY_CLIENTS: u8 = 4;
}

/// Control codes of Error.
pub mod error {
    pub const UNIDENTIFIED: u8 = 0;
    pub const MESSAGE_TYPE: u8 = 1;
    pub const CONTROL_CODE: u8 = 2;
    pub const VENDOR_MESSAGE: u8 = 3;
    pub const TOO_LARGE: u8 = 4;
    /// The first that is the device's own: the command is not allowed.
    pub const NOT_ALLOWED: u8 = 128;
}

#[derive(Clone, Copy, Debug, PartialEq, Eq)]
pub struct Header {
    pub kind: u8,
    pub code: u8,
    pub parameter: u32,
    pub length: u64,
}

impl Header {
    /// None if the prologue is not "HS".
    #[inline]
    pub fn read(bytes: &[u8; HEADER]) -> Option<Header> {
        let [b'H', b'S', kind, code, p0, p1, p2, p3, length @ ..] = *bytes else {
            return None;
        };
        Some(Header {
            kind,
            code,
            parameter: u32::from_be_bytes([p0, p1, p2, p3]),
            length: u64::from_be_bytes(length),
        })
    }

    #[inline]
    pub fn write(&self) -> [u8; HEADER] {
        let mut bytes = [0; HEADER];
        bytes[..4].copy_from_slice(&[b'H', b'S', self.kind, self.code]);
        bytes[4..8].copy_from_slice(&self.parameter.to_be_bytes());
        bytes[8..].copy_from_slice(&self.length.to_be_bytes());
        bytes
    }
}

/// Frames written into the lent buffer (01: parcels): a connection byte, then a message.
pub struct Frames<'a> {
    out: &'a mut [u8],
    used: usize,
}

impl<'a> Frames<'a> {
    pub fn new(out: &'a mut [u8]) -> Frames<'a> {
        Frames { out, used: 0 }
    }

    pub fn used(&self) -> usize {
        self.used
    }

    #[inline]
    pub fn send(&mut self, connection: u8, kind: u8, code: u8, parameter: u32) {
        self.send_with(connection, kind, code, parameter, &[]);
    }

    #[inline]
    pub fn send_with(&mut self, to: u8, kind: u8, code: u8, parameter: u32, payload: &[u8]) {
        let header = Header {
            kind,
            code,
            parameter,
            length: payload.len() as u64,
        };
        let end = self.used + 1 + HEADER + payload.len();
        let frame = &mut self.out[self.used..end];
        frame[0] = to;
        frame[1..1 + HEADER].copy_from_slice(&header.write());
        frame[1 + HEADER..].copy_from_slice(payload);
        self.used = end;
    }
}

/// 01's channels (there: lanes).
#[derive(Clone, Copy, Debug, PartialEq, Eq)]
pub enum Channel {
    Synchronous = 0,
    Asynchronous = 1,
}

#[derive(Clone, Copy, Debug, PartialEq, Eq)]
pub enum Class {
    ActedOn,
    Vendor,
    Unrecognised,
}

static CLASSES: [[Class; 256]; 2] = [
    classes(&[0, 2, 3, 6, 7, 8, 12]),
    classes(&[2, 3, 4, 10, 15, 17, 19, 21, 24]),
];

const fn classes(acted_on: &[u8]) -> [Class; 256] {
    let mut table = [Class::Unrecognised; 256];
    let mut kind = 128;
    while kind < 256 {
        table[kind] = Class::Vendor;
        kind += 1;
    }
    let mut i = 0;
    while i < acted_on.len() {
        table[acted_on[i] as usize] = Class::ActedOn;
        i += 1;
    }
    table
}

/// One table of 512 entries: type number and channel.
#[inline]
pub fn class(channel: Channel, kind: u8) -> Class {
    CLASSES[channel as usize][kind as usize]
}
