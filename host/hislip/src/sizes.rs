//! The sizes of the interface, as `include/hislip_server.h` has them.

/// Live sessions, half-open ones included.
pub const SESSIONS: usize = 32;

/// Connections are numbered from 0 to one below this.
pub const CONNECTIONS: usize = 64;

/// Bytes of a message before its payload.
pub const HEADER: usize = 16;

/// Bytes of payload, either way.
pub const PAYLOAD: usize = 1024;

/// Bytes of a lock string.
pub const LOCK_STRING: usize = 256;

/// Smallest output buffer that is not refused.
pub const OUTPUT: usize = 2048;

/// The highest clock that is not refused, in milliseconds.
pub const CLOCK_MAX: u64 = 1 << 62;

/// Patterns of a list of allowed commands.
pub const PATTERNS: usize = 32;

/// Bytes of a pattern.
pub const PATTERN: usize = 128;

/// The code of the Error that answers a command which is not allowed.
pub const NOT_ALLOWED: u8 = 128;

/// Words of 64 bits that a server is kept in: what [`crate::sys::hislip_words`] tells.
pub const WORDS: usize = 1005;

/// Bytes that a server is kept in beside them: what [`crate::sys::hislip_string_bytes`] tells.
pub const STRING_BYTES: usize = 12576;
