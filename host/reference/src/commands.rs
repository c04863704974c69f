//! The commands that the host allows.

use crate::grammar::first_bad;
use crate::limits::PATTERNS;
use crate::reply::{Refusal, RefusedList};
use crate::server::Server;
use crate::spelling::Pattern;

/// The patterns of a text, each ended by a newline; a last one may lack it.
pub fn lines(text: &[u8]) -> Vec<&[u8]> {
    let ended = text.strip_suffix(b"\n").unwrap_or(text);
    match text.is_empty() {
        true => Vec::new(),
        false => ended.split(|byte| *byte == b'\n').collect(),
    }
}

/// A payload up to its first space, newline or end.
fn command(payload: &[u8]) -> &[u8] {
    let end = payload.iter().position(|byte| matches!(byte, b' ' | b'\n'));
    &payload[..end.unwrap_or(payload.len())]
}

impl Server {
    /// Sets the list of allowed commands, for all sessions; a refused one changes nothing.
    pub fn patterns(&mut self, text: &[u8]) -> Result<(), RefusedList> {
        let lines = lines(text);
        if lines.len() > PATTERNS {
            return Err(RefusedList {
                refusal: Refusal::TooManyPatterns,
                pattern: 0,
                place: 0,
            });
        }
        for (pattern, line) in lines.iter().enumerate() {
            if let Some(place) = first_bad(line) {
                return Err(RefusedList {
                    refusal: Refusal::BadPattern,
                    pattern,
                    place,
                });
            }
        }
        self.allowed = Some(lines.into_iter().map(Pattern::of).collect());
        Ok(())
    }

    /// Without a list everything, with an empty one nothing.
    pub(crate) fn allows(&self, payload: &[u8]) -> bool {
        let Some(list) = &self.allowed else {
            return true;
        };
        let command = command(payload);
        list.iter().any(|pattern| pattern.spells(command))
    }
}
