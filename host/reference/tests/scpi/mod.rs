//! Patterns for tests: the grammar read plainly, all spellings written out, and random ones.
#![allow(dead_code)]

use std::collections::BTreeSet;

use crate::random::Random;

/// A text behind which more may follow.
type Rest<'a> = Option<&'a [u8]>;

/// 02's sentence, without the length: a word, then any row of parts, then perhaps "?"; or a star, one or more
/// capitals and perhaps "?".
pub fn is_pattern(text: &[u8]) -> bool {
    let rest = match text {
        [b'*', common @ ..] => some(common, u8::is_ascii_uppercase),
        _ => word(text).and_then(|rest| row(rest, 8)),
    };
    matches!(rest, Some(b"" | b"?"))
}

/// One or more bytes of a kind.
fn some(text: &[u8], kind: impl Fn(&u8) -> bool) -> Rest<'_> {
    let count = text.iter().take_while(|byte| kind(byte)).count();
    (count > 0).then(|| &text[count..])
}

fn word(text: &[u8]) -> Rest<'_> {
    let rest = some(text, u8::is_ascii_uppercase)?;
    Some(some(rest, u8::is_ascii_lowercase).unwrap_or(rest))
}

/// Parts as long as there are any; so many brackets may still be opened.
fn row(mut text: &[u8], depth: usize) -> Rest<'_> {
    while matches!(text, [b':' | b'[', ..]) {
        text = part(text, depth)?;
    }
    Some(text)
}

fn part(text: &[u8], depth: usize) -> Rest<'_> {
    match text {
        [b':', rest @ ..] => word(rest),
        [b'[', rest @ ..] if depth > 0 => {
            let rest = row(part(rest, depth - 1)?, depth - 1)?;
            rest.strip_prefix(b"]")
        }
        _ => None,
    }
}

/// Every command that a pattern spells, in capitals: each bracket kept and dropped, each word short and long.
pub fn spellings(pattern: &[u8]) -> BTreeSet<Vec<u8>> {
    let (mut rest, mut begun) = (pattern, BTreeSet::from([vec![]]));
    while let [first, ..] = rest {
        let (choices, size) = match first {
            b'[' => {
                let size = bracket(rest);
                let mut inside = spellings(&rest[1..size - 1]);
                inside.insert(vec![]);
                (inside, size)
            }
            _ => {
                let size = 1 + rest[1..]
                    .iter()
                    .take_while(|byte| byte.is_ascii_alphabetic())
                    .count();
                let short = rest[..size]
                    .iter()
                    .filter(|byte| !byte.is_ascii_lowercase());
                let long = rest[..size].to_ascii_uppercase();
                (BTreeSet::from([short.copied().collect(), long]), size)
            }
        };
        let with = |text: &Vec<u8>| {
            choices
                .iter()
                .map(|more| [&text[..], more].concat())
                .collect::<Vec<_>>()
        };
        begun = begun.iter().flat_map(with).collect();
        rest = &rest[size..];
    }
    begun
}

/// Bytes of the bracketed part that a text begins with.
fn bracket(text: &[u8]) -> usize {
    let mut depth = 0;
    let ends = text.iter().position(|byte| {
        depth += i32::from(*byte == b'[') - i32::from(*byte == b']');
        depth == 0
    });
    ends.expect("closed") + 1
}

/// One of two letters.
fn letter(random: &mut Random, first: u8) -> u8 {
    first + random.below(2) as u8
}

/// A pattern of few letters, with brackets at most so deep.
pub fn grown(random: &mut Random, depth: usize) -> Vec<u8> {
    let mut text = Vec::new();
    if random.below(8) == 0 {
        text.push(b'*');
        text.extend((0..=random.below(3)).map(|_| letter(random, b'A')));
    } else {
        grow_word(random, &mut text);
        for _ in 0..random.below(4) {
            grow_part(random, depth, &mut text);
        }
    }
    if random.below(2) == 0 {
        text.push(b'?');
    }
    text
}

fn grow_word(random: &mut Random, text: &mut Vec<u8>) {
    text.extend((0..=random.below(2)).map(|_| letter(random, b'A')));
    text.extend((0..random.below(3)).map(|_| letter(random, b'a')));
}

fn grow_part(random: &mut Random, depth: usize, text: &mut Vec<u8>) {
    if depth > 0 && random.below(2) == 0 {
        text.push(b'[');
        for _ in 0..=random.below(2) {
            grow_part(random, depth - 1, text);
        }
        text.push(b']');
    } else {
        text.push(b':');
        grow_word(random, text);
    }
}
