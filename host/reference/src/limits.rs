//! Sizes at the bench (01, raised by 02's Q-6). Each stands here once.

/// Live sessions, half-open ones included.
pub const SESSIONS: usize = 32;
/// Connections are numbered from 0 to one less.
pub const CONNECTIONS: usize = 64;
/// Payload bytes taken from a client, or sent as an instrument's answer.
pub const PAYLOAD: usize = 1024;
/// Bytes of a lock string.
pub const LOCK_STRING: usize = 256;
/// Highest clock reading.
pub const CLOCK: u64 = 1 << 62;
/// Locks granted to a session are counted so far.
pub const GRANTS: u64 = 1 << 62;
/// Command patterns in a list.
pub const PATTERNS: usize = 32;
/// Bytes of a command pattern.
pub const PATTERN: usize = 128;
/// Brackets of a pattern inside one another.
pub const BRACKETS: usize = 8;
/// Smallest output buffer.
pub const OUTPUT: usize = 2048;

// The longest output: an answer, one direct reply, a lock answer for every session and two
// FatalErrors with one frame to spare.
const _: () = assert!(17 + PAYLOAD + 17 + 17 * SESSIONS + 51 <= OUTPUT);
