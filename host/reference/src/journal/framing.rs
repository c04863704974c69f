//! Entries and the closing trailer as bytes. All numbers have 4 bytes, highest first.

use crate::journal::crc::crc32;

/// 02: bodies may reach 5,000 bytes.
pub const BODY_LIMIT: usize = 5_000;
/// What begins the closing trailer.
pub const MARK: [u8; 4] = *b"BACK";
/// Bytes of the closing trailer.
pub const TRAILER: usize = 12;
/// Bytes of an entry beside its body: length, distance and sum.
pub const AROUND: usize = 12;
/// 02: bytes past 2^31 are never used.
pub const REACH: usize = 1 << 31;

/// Bytes of a number.
const NUMBER: usize = 4;

/// Why bytes do not begin with a whole entry. The order is that of the tests.
#[derive(Clone, Copy, Debug, PartialEq, Eq)]
pub enum Broken {
    /// The length is above the limit.
    TooLong,
    /// Bytes are missing.
    CutShort,
    Distance,
    Sum,
}

/// The number at a place, if its bytes are there.
pub fn number(bytes: &[u8], at: usize) -> Option<u32> {
    let four = bytes.get(at..)?.first_chunk()?;
    Some(u32::from_be_bytes(*four))
}

/// An entry's bytes.
pub fn entry(body: &[u8]) -> Vec<u8> {
    let length = body.len() as u32;
    let mut bytes = Vec::with_capacity(body.len() + AROUND);
    bytes.extend(length.to_be_bytes());
    bytes.extend(body);
    let sum = crc32(&bytes);
    bytes.extend((length + NUMBER as u32).to_be_bytes());
    bytes.extend(sum.to_be_bytes());
    bytes
}

/// The closing trailer's bytes.
pub fn trailer(last: u32, count: u32) -> Vec<u8> {
    [MARK, last.to_be_bytes(), count.to_be_bytes()].concat()
}

/// The body of the whole entry, with right distance and sum, that bytes begin with.
pub fn body(bytes: &[u8]) -> Result<&[u8], Broken> {
    let length = number(bytes, 0).ok_or(Broken::CutShort)? as usize;
    if length > BODY_LIMIT {
        return Err(Broken::TooLong);
    }
    let whole = bytes.get(..length + AROUND).ok_or(Broken::CutShort)?;
    let (headed, behind) = whole.split_at(NUMBER + length);
    if number(behind, 0) != Some(headed.len() as u32) {
        return Err(Broken::Distance);
    }
    if number(behind, NUMBER) != Some(crc32(headed)) {
        return Err(Broken::Sum);
    }
    Ok(&headed[NUMBER..])
}

/// No byte past 2^31 is looked at.
pub fn used(book: &[u8]) -> &[u8] {
    &book[..book.len().min(REACH)]
}
