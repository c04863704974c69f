//! The commands that the host allows: patterns are read once, when the list is set, into words with what may
//! follow each; a command is then followed word by word through all of a pattern at once.

use reference::limits::{BRACKETS, PATTERN, PATTERNS};
use reference::{Refusal, Reply};

use crate::replies::{done, refused};
use crate::server::Server;

/// One bit for each word of a pattern.
type Set = u64;
// The first word has a byte at least, each further one a colon before it.
const _: () = assert!(PATTERN.div_ceil(2) <= Set::BITS as usize);

#[derive(Clone, Copy, Hash)]
struct Word {
    /// The words that may follow it.
    follow: Set,
    /// Where its letters begin, how many there are, and how many of them are the short form.
    start: u16,
    long: u8,
    short: u8,
}

#[derive(Clone, Copy, Hash)]
struct Pattern {
    /// Where its words begin.
    first: u16,
    /// It ends in a question mark.
    query: bool,
    /// The words that it may end with.
    ends: Set,
}

/// A list of patterns.
#[derive(Clone, Hash)]
pub struct Allowed {
    letters: Vec<u8>,
    words: Vec<Word>,
    patterns: Vec<Pattern>,
}

impl Server {
    /// Sets the list; a refused one changes nothing.
    pub fn patterns(&mut self, text: &[u8]) -> Reply {
        let ended = text.strip_suffix(b"\n").unwrap_or(text);
        let lines = || ended.split(|byte| *byte == b'\n');
        let count = if text.is_empty() { 0 } else { lines().count() };
        if count > PATTERNS {
            return refused(Refusal::TooManyPatterns);
        }
        for (pattern, line) in lines().take(count).enumerate() {
            if let Some(place) = bad_place(line) {
                return Reply {
                    pattern: pattern as u64,
                    place: place as u64,
                    ..refused(Refusal::BadPattern)
                };
            }
        }
        let mut allowed = Allowed {
            letters: Vec::with_capacity(text.len()),
            words: Vec::new(),
            patterns: Vec::with_capacity(count),
        };
        lines().take(count).for_each(|line| allowed.add(line));
        self.allowed = Some(allowed);
        done(0)
    }
}

/// Where a text is no longer the beginning of a pattern, where it stops short, or where it gets too long.
fn bad_place(text: &[u8]) -> Option<usize> {
    let star = text.first() == Some(&b'*');
    let (mut before, mut depth): (u8, usize) = (0, 0);
    for (place, byte) in text.iter().take(PATTERN).enumerate() {
        let ends = before.is_ascii_alphabetic() || before == b']';
        let good = match byte {
            b'A'..=b'Z' => matches!(before, 0 | b':' | b'*' | b'A'..=b'Z'),
            b'a'..=b'z' => before.is_ascii_alphabetic() && !star,
            b'*' => place == 0,
            b':' => (ends || before == b'[') && !star,
            b'[' => (ends || before == b'[') && !star && depth < BRACKETS,
            b']' => ends && depth > 0,
            b'?' => ends && depth == 0,
            _ => false,
        };
        if !good {
            return Some(place);
        }
        depth += usize::from(*byte == b'[');
        depth -= usize::from(*byte == b']');
        before = *byte;
    }
    let whole = matches!(before, b'A'..=b'Z' | b'a'..=b'z' | b']' | b'?') && depth == 0;
    (text.len() > PATTERN || !whole).then_some(text.len().min(PATTERN))
}

impl Allowed {
    /// One pattern more, known to be good.
    fn add(&mut self, text: &[u8]) {
        let first = self.words.len();
        let mut open = [0; BRACKETS];
        // Behind which words the next one may stand.
        let (mut behind, mut depth): (Set, usize) = (0, 0);
        let mut rest = text;
        while let [byte, further @ ..] = rest {
            rest = further;
            match byte {
                b':' | b'?' => {}
                b'[' => {
                    open[depth] = behind;
                    depth += 1;
                }
                b']' => {
                    depth -= 1;
                    behind |= open[depth];
                }
                _ => {
                    let length = further.iter().take_while(|byte| byte.is_ascii_alphabetic());
                    let length = length.count();
                    let word = &text[text.len() - further.len() - 1..][..=length];
                    behind = self.add_word(first, behind, word);
                    rest = &further[length..];
                }
            }
        }
        self.patterns.push(Pattern {
            first: first as u16,
            query: text.ends_with(b"?"),
            ends: behind,
        });
    }

    /// A word that may stand behind these; returns itself as a set.
    fn add_word(&mut self, first: usize, behind: Set, word: &[u8]) -> Set {
        let own = 1 << (self.words.len() - first);
        for (place, before) in self.words[first..].iter_mut().enumerate() {
            if behind >> place & 1 == 1 {
                before.follow |= own;
            }
        }
        let small = word.iter().filter(|byte| byte.is_ascii_lowercase()).count();
        self.words.push(Word {
            follow: 0,
            start: self.letters.len() as u16,
            long: word.len() as u8,
            short: (word.len() - small) as u8,
        });
        self.letters.extend(word.to_ascii_uppercase());
        own
    }

    /// Whether a payload's command, up to its first space, newline or end, is one of the list.
    pub fn allows(&self, payload: &[u8]) -> bool {
        let end = payload.iter().position(|byte| matches!(byte, b' ' | b'\n'));
        let command = &payload[..end.unwrap_or(payload.len())];
        let (command, query) = match command.strip_suffix(b"?") {
            Some(command) => (command, true),
            None => (command, false),
        };
        let colon = command.iter().position(|byte| *byte == b':');
        let (first, rest) = match colon {
            Some(colon) => (&command[..colon], Some(&command[colon + 1..])),
            None => (command, None),
        };
        let mut patterns = self.patterns.iter();
        patterns.any(|pattern| {
            let words = &self.words[usize::from(pattern.first)..];
            pattern.query == query
                && self.is(&words[0], first)
                && self.goes_on(words, pattern.ends, rest)
        })
    }

    #[inline]
    fn is(&self, word: &Word, given: &[u8]) -> bool {
        let length = given.len();
        let fits = length == usize::from(word.short) || length == usize::from(word.long);
        fits && self.letters[usize::from(word.start)..][..length].eq_ignore_ascii_case(given)
    }

    /// The command behind its first word; the pattern's words are all followed at once.
    fn goes_on(&self, words: &[Word], ends: Set, rest: Option<&[u8]>) -> bool {
        let mut here: Set = 1;
        let given = rest
            .into_iter()
            .flat_map(|rest| rest.split(|byte| *byte == b':'));
        for given in given {
            let next = places(here).fold(0, |next, place| next | words[place].follow);
            here = places(next)
                .filter(|place| self.is(&words[*place], given))
                .fold(0, |here, place| here | 1 << place);
        }
        here & ends != 0
    }
}

/// The places in a set, from the lowest.
fn places(set: Set) -> impl Iterator<Item = usize> {
    let mut left = set;
    std::iter::from_fn(move || {
        let place = left.trailing_zeros();
        left &= left.wrapping_sub(1);
        (place < Set::BITS).then_some(place as usize)
    })
}
