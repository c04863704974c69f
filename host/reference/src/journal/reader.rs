//! The two readers. Each ends at the first place that is no whole entry with right distance and sum.

use std::iter::successors;

use crate::journal::framing::{body, number, used, AROUND, MARK, TRAILER};

/// An entry that a reader found.
#[derive(Clone, Copy, Debug, PartialEq, Eq)]
pub struct Found<'a> {
    /// Where it begins.
    pub at: usize,
    pub body: &'a [u8],
    /// Where the reader goes on.
    pub next: usize,
}

/// The entry that begins at a place.
pub fn forward(book: &[u8], at: usize) -> Option<Found<'_>> {
    let body = body(used(book).get(at..)?).ok()?;
    Some(Found {
        at,
        body,
        next: at + body.len() + AROUND,
    })
}

/// The entry of a closed journal that ends at a place: before the last twelve bytes, or further to the front.
pub fn backward(book: &[u8], end: usize) -> Option<Found<'_>> {
    let entries = closed(book)?.get(..end)?;
    let distance = number(entries, end.checked_sub(8)?)?;
    let at = (end - 8).checked_sub(distance as usize)?;
    let body = body(&entries[at..]).ok()?;
    let ends = at + body.len() + AROUND == end;
    ends.then_some(Found { at, body, next: at })
}

/// The bytes before a closing trailer.
fn closed(book: &[u8]) -> Option<&[u8]> {
    let book = used(book);
    let end = book.len().checked_sub(TRAILER)?;
    book[end..].starts_with(&MARK).then_some(&book[..end])
}

/// The entries from the front, also of a journal that was not closed.
pub fn entries(book: &[u8]) -> impl Iterator<Item = Found<'_>> {
    successors(forward(book, 0), |found| forward(book, found.next))
}

/// The entries of a closed journal, last first.
pub fn entries_backward(book: &[u8]) -> impl Iterator<Item = Found<'_>> {
    let end = closed(book).map(<[u8]>::len);
    let last = end.and_then(|end| backward(book, end));
    successors(last, |found| backward(book, found.next))
}
