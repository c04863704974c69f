//! Which texts are command patterns, and where a text is no longer the beginning of one.

use crate::limits::{BRACKETS, PATTERN};

/// What a reading has just passed.
#[derive(Clone, Copy, PartialEq, Eq)]
enum Behind {
    Nothing,
    /// The star of a common command, and a capital behind it.
    Star,
    Common,
    /// A capital and a small letter of a word.
    Capital,
    Small,
    Colon,
    Opening,
    Closing,
    Question,
}

#[derive(Clone, Copy)]
struct Place {
    behind: Behind,
    /// Brackets that are open here.
    depth: usize,
}

impl Place {
    const FIRST: Place = Place {
        behind: Behind::Nothing,
        depth: 0,
    };

    /// The next place, if a pattern may have this byte here. How long it would get is not asked.
    fn pass(self, byte: u8) -> Option<Place> {
        use Behind::*;
        let Place { behind, depth } = self;
        let word = matches!(behind, Capital | Small);
        let part = word || behind == Closing;
        let (behind, depth) = match byte {
            b'A'..=b'Z' if matches!(behind, Nothing | Colon | Capital) => (Capital, depth),
            b'A'..=b'Z' if matches!(behind, Star | Common) => (Common, depth),
            b'a'..=b'z' if word => (Small, depth),
            b'*' if behind == Nothing => (Star, depth),
            b':' if part || behind == Opening => (Colon, depth),
            b'[' if (part || behind == Opening) && depth < BRACKETS => (Opening, depth + 1),
            b']' if part && depth > 0 => (Closing, depth - 1),
            b'?' if part && depth == 0 => (Question, depth),
            b'?' if behind == Common => (Question, depth),
            _ => return None,
        };
        Some(Place { behind, depth })
    }

    /// A pattern may end here.
    fn may_end(self) -> bool {
        use Behind::*;
        let ends = matches!(self.behind, Capital | Small | Closing | Common | Question);
        ends && self.depth == 0
    }
}

/// The place of the first byte that no pattern could have there, the length of a text that stops short, or the
/// most that a pattern may have, for a text that is longer and good so far. None: it is a pattern.
pub fn first_bad(text: &[u8]) -> Option<usize> {
    let mut here = Place::FIRST;
    for (place, byte) in text.iter().take(PATTERN).enumerate() {
        match here.pass(*byte) {
            Some(next) => here = next,
            None => return Some(place),
        }
    }
    match text.len() {
        length if length > PATTERN => Some(PATTERN),
        _ if here.may_end() => None,
        length => Some(length),
    }
}
