//! Command patterns and commands that lists are made of.

use crate::numbers::Numbers;

/// Few words, so that patterns and commands meet.
const WORDS: [&[u8]; 9] = [
    b"A", b"AB", b"Ab", b"ABc", b"B", b"Bb", b"MEASure", b"VOLTage", b"DC",
];
const STARS: [&[u8]; 5] = [b"*IDN", b"*RST", b"*A", b"*AB", b"*ID"];
/// Brackets inside one another in a pattern that is grown; one more than may be, so that the ninth is met.
const DEPTH: usize = 9;
/// What a byte is changed to: every class of the grammar, and what differs from one by the bit of the case.
pub const BYTES: [u8; 22] = [
    b'A', b'Z', b'a', b'z', b':', b'[', b']', b'?', b'*', b' ', b'0', b';', b'\t', 0, 0x1a, 0x1f,
    b'@', b'`', b'{', 0x7f, 0x80, 0xff,
];

fn word(numbers: &mut Numbers, text: &mut Vec<u8>) {
    text.extend(numbers.pick(&WORDS));
}

/// A pattern by the grammar, but for its length and for how deep it may get.
pub fn any_pattern(numbers: &mut Numbers) -> Vec<u8> {
    let mut text = Vec::new();
    if numbers.permille(200) {
        text.extend(numbers.pick(&STARS));
    } else {
        word(numbers, &mut text);
        for _ in 0..numbers.pick(&[0, 1, 1, 2, 3, 12]) {
            part(numbers, DEPTH, &mut text);
        }
    }
    if numbers.permille(500) {
        text.push(b'?');
    }
    text
}

fn part(numbers: &mut Numbers, depth: usize, text: &mut Vec<u8>) {
    if depth > 0 && numbers.permille(500) {
        text.push(b'[');
        for _ in 0..numbers.pick(&[1, 1, 1, 2]) {
            part(numbers, depth - 1, text);
        }
        text.push(b']');
    } else {
        text.push(b':');
        word(numbers, text);
    }
}

/// The text of a list: few patterns, or about as many as there may be; some damaged.
pub fn any_list(numbers: &mut Numbers) -> Vec<u8> {
    let count = match numbers.below(12) {
        0 => 0,
        1 => 31 + numbers.below(3),
        _ => 1 + numbers.below(5),
    };
    let mut text = Vec::new();
    for _ in 0..count {
        let mut pattern = any_pattern(numbers);
        if numbers.permille(60) {
            damage(numbers, &mut pattern);
        }
        text.extend(pattern);
        text.push(b'\n');
    }
    if numbers.permille(300) {
        text.pop();
    }
    text
}

/// One byte changed, left out or put in, or the end cut off.
pub fn damage(numbers: &mut Numbers, text: &mut Vec<u8>) {
    let place = numbers.below(text.len() + 1);
    let byte = numbers.pick(&BYTES);
    match (numbers.below(4), text.get_mut(place)) {
        (0, Some(there)) => *there = byte,
        (1, Some(_)) => drop(text.remove(place)),
        (2, _) => text.truncate(place),
        _ => text.insert(place, byte),
    }
}

/// A command that a pattern spells: each bracket kept or dropped, each word short or long, in any case.
pub fn spell(numbers: &mut Numbers, pattern: &[u8]) -> Vec<u8> {
    let mut command: Vec<u8> = Vec::new();
    let mut rest = pattern;
    while let [first, further @ ..] = rest {
        let letters = further.iter().take_while(|byte| byte.is_ascii_alphabetic());
        let size = match first {
            b'[' if numbers.permille(500) => bracket(rest),
            b'[' | b']' => 1,
            _ => {
                let size = 1 + letters.count();
                let long = numbers.permille(500);
                let kept = |byte: &&u8| long || !byte.is_ascii_lowercase();
                command.extend(rest[..size].iter().filter(kept));
                size
            }
        };
        rest = &rest[size..];
    }
    for byte in &mut command {
        if numbers.permille(400) {
            byte.make_ascii_lowercase();
        }
    }
    command
}

/// Bytes of the bracketed part that a text begins with; all of it if the bracket is not closed.
fn bracket(text: &[u8]) -> usize {
    let mut depth = 0;
    let ends = text.iter().position(|byte| {
        depth += i32::from(*byte == b'[') - i32::from(*byte == b']');
        depth == 0
    });
    ends.map_or(text.len(), |end| end + 1)
}

/// The payload of a DataEND: mostly a command that one of these patterns spells, with what may follow it.
pub fn any_command(numbers: &mut Numbers, patterns: &[Vec<u8>]) -> Vec<u8> {
    let mut command = match patterns.len() {
        0 => any_pattern(numbers),
        count => {
            let pattern = &patterns[numbers.below(count)];
            spell(numbers, pattern)
        }
    };
    if numbers.permille(120) {
        damage(numbers, &mut command);
    }
    let behind: [&[u8]; 7] = [b"", b"", b" 1", b"\n", b" ?", b"\t", b";*RST"];
    command.extend(numbers.pick(&behind));
    command
}

#[cfg(test)]
mod tests {
    use super::{any_pattern, spell};
    use crate::numbers::Numbers;
    use reference::grammar::first_bad;
    use reference::spelling::Pattern;

    #[test]
    fn what_is_grown_is_mostly_good_and_spelled() {
        let mut numbers = Numbers::new(12);
        let mut good = 0;
        for _ in 0..2_000 {
            let pattern = any_pattern(&mut numbers);
            if first_bad(&pattern).is_some() {
                continue;
            }
            good += 1;
            let command = spell(&mut numbers, &pattern);
            let told = || format!("{} {}", pattern.escape_ascii(), command.escape_ascii());
            assert!(Pattern::of(&pattern).spells(&command), "{}", told());
        }
        assert!(good > 1_200, "{good} of 2,000 are patterns");
    }
}
