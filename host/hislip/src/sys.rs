//! The C interface, as `include/hislip_server.h` declares it; what each call does and asks for is
//! said there.

#![allow(non_camel_case_types)]

pub mod journal;

/// The answer to a delivery.
#[repr(C)]
#[derive(Clone, Copy, Debug, PartialEq, Eq)]
pub struct hislip_delivery {
    /// 0, or 1 to 8 and then every other field is 0.
    pub refusal: u64,
    /// 0 (more needed) to 6 (acted on).
    pub outcome: u64,
    /// The session's number if closed or acted on; 0 if there is none.
    pub session: u64,
    /// Bytes taken from the front.
    pub taken: u64,
    /// Bytes of frames in the buffer.
    pub output: u64,
    /// With more needed, the bytes missing; else 0.
    pub missing: u64,
}

/// The answer to any other event that has one.
#[repr(C)]
#[derive(Clone, Copy, Debug, PartialEq, Eq)]
pub struct hislip_done {
    /// 0, or 1 to 8 and then `output` is 0.
    pub refusal: u64,
    /// Bytes of frames in the buffer.
    pub output: u64,
}

/// The answer to `hislip_deadline`.
#[repr(C)]
#[derive(Clone, Copy, Debug, PartialEq, Eq)]
pub struct hislip_deadlines {
    /// How many lock requests wait.
    pub waiting: u64,
    /// The earliest of their deadlines; 0 if none waits.
    pub deadline: u64,
}

/// The answer to `hislip_client_size`.
#[repr(C)]
#[derive(Clone, Copy, Debug, PartialEq, Eq)]
pub struct hislip_sized {
    /// 0, or 8 and then `size` is 0.
    pub refusal: u64,
    /// The largest payload that the session's client takes.
    pub size: u64,
}

/// A session that holds a lock, as `hislip_holders` tells it.
#[repr(C)]
#[derive(Clone, Copy, Debug, Default, PartialEq, Eq)]
pub struct hislip_row {
    /// Its number.
    pub session: u64,
    /// 1 if it holds the exclusive lock, else 0.
    pub exclusive: u64,
    /// 1 if it holds a shared lock, else 0.
    pub shared: u64,
    /// The reading of the clock at the last grant to it.
    pub granted_at: u64,
    /// Locks granted to it since it opened; once at 2^62 it stays there.
    pub grants: u64,
}

/// The answer to `hislip_holders`.
#[repr(C)]
#[derive(Clone, Copy, Debug, PartialEq, Eq)]
pub struct hislip_counted {
    /// 0, or 9 and then `rows` is 0.
    pub refusal: u64,
    /// How many rows were written.
    pub rows: u64,
}

/// The answer to `hislip_readings`.
#[repr(C)]
#[derive(Clone, Copy, Debug, PartialEq)]
pub struct hislip_record {
    /// 0, or 8 and then every other field is 0.
    pub refusal: u64,
    /// 1 if there is a reading; if 0, the others are 0.
    pub seen: u64,
    /// The last reading that was a number.
    pub last: f32,
    /// The first of the lowest.
    pub lowest: f32,
    /// The first of the highest.
    pub highest: f32,
}

/// The answer to `hislip_patterns`.
#[repr(C)]
#[derive(Clone, Copy, Debug, PartialEq, Eq)]
pub struct hislip_listed {
    /// 0, 11 or 12; unless it is 11, the others are 0.
    pub refusal: u64,
    /// The first bad pattern, from 0.
    pub pattern: u64,
    /// Where in it, from 0.
    pub place: u64,
}

/// The answer to an instrument's answer.
#[repr(C)]
#[derive(Clone, Copy, Debug, PartialEq, Eq)]
pub struct hislip_answered {
    /// 0, or 1 to 8 and then the other fields are 0.
    pub refusal: u64,
    /// 1 if the answer was not sent, since another message has come.
    pub withheld: u64,
    /// Bytes of frames in the buffer.
    pub output: u64,
}

extern "C" {
    /// How many words to lend.
    pub fn hislip_words() -> u64;
    /// How many bytes to lend.
    pub fn hislip_string_bytes() -> u64;
    /// Writes a fresh server into lent memory; `overlap` 0 prefers synchronized mode.
    pub fn hislip_new(words: *mut u64, strings: *mut u8, vendor: u16, overlap: u8);
    /// A connection opens.
    pub fn hislip_open(words: *mut u64, strings: *mut u8, connection: u32) -> hislip_done;
    /// Unread bytes of a connection.
    #[must_use = "the frames in the buffer are to be sent"]
    pub fn hislip_deliver(
        words: *mut u64,
        strings: *mut u8,
        connection: u32,
        bytes: *const u8,
        len: usize,
        out: *mut u8,
        out_len: usize,
    ) -> hislip_delivery;
    /// A connection is cut.
    #[must_use = "the frames in the buffer are to be sent"]
    pub fn hislip_cut(
        words: *mut u64,
        strings: *mut u8,
        connection: u32,
        out: *mut u8,
        out_len: usize,
    ) -> hislip_done;
    /// The clock reads so many milliseconds.
    #[must_use = "the frames in the buffer are to be sent"]
    pub fn hislip_clock(
        words: *mut u64,
        strings: *mut u8,
        milliseconds: u64,
        out: *mut u8,
        out_len: usize,
    ) -> hislip_done;
    /// The instrument answers a session.
    #[must_use = "the frames in the buffer are to be sent"]
    pub fn hislip_answer(
        words: *mut u64,
        strings: *mut u8,
        session: u32,
        payload: *const u8,
        len: usize,
        end: u8,
        shown: *const u8,
        shown_len: usize,
        out: *mut u8,
        out_len: usize,
    ) -> hislip_answered;
    /// The instrument's status byte changes.
    pub fn hislip_status(words: *mut u64, strings: *mut u8, status: u8);
    /// The watch over a session's readings is off.
    pub fn hislip_watch_off(words: *mut u64, strings: *mut u8, session: u32) -> hislip_done;
    /// It is tripped by a reading above a limit.
    pub fn hislip_watch_above(
        words: *mut u64,
        strings: *mut u8,
        session: u32,
        limit: f32,
    ) -> hislip_done;
    /// It is tripped by a reading below `low` or above `high`.
    pub fn hislip_watch_outside(
        words: *mut u64,
        strings: *mut u8,
        session: u32,
        low: f32,
        high: f32,
    ) -> hislip_done;
    /// The list of allowed commands is set.
    #[must_use = "a refused list is not set"]
    pub fn hislip_patterns(
        words: *mut u64,
        strings: *mut u8,
        text: *const u8,
        len: usize,
    ) -> hislip_listed;
    /// How many lock requests wait, and until when.
    #[must_use = "asking changes nothing"]
    pub fn hislip_deadline(words: *const u64, strings: *const u8) -> hislip_deadlines;
    /// How long an answer to a session may be.
    #[must_use = "asking changes nothing"]
    pub fn hislip_client_size(words: *const u64, strings: *const u8, session: u32) -> hislip_sized;
    /// Who holds what, since when.
    #[must_use = "it counts the rows that were written"]
    pub fn hislip_holders(
        words: *const u64,
        strings: *const u8,
        rows: *mut hislip_row,
        rows_len: usize,
    ) -> hislip_counted;
    /// The record of a session's readings.
    #[must_use = "asking changes nothing"]
    pub fn hislip_readings(words: *const u64, strings: *const u8, session: u32) -> hislip_record;
}
