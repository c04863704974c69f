//! Words, numbers and bytes of a line.

use std::str::{FromStr, SplitWhitespace};

/// The words of a text, one after another.
pub struct Reader<'a> {
    words: SplitWhitespace<'a>,
}

impl<'a> Reader<'a> {
    pub fn new(text: &'a str) -> Reader<'a> {
        Reader {
            words: text.split_whitespace(),
        }
    }

    /// The next word; `what` is what is missing if there is none.
    pub fn next(&mut self, what: &str) -> Result<&'a str, String> {
        self.words.next().ok_or(format!("{what} is missing"))
    }

    pub fn end(&mut self) -> Result<(), String> {
        match self.words.next() {
            None => Ok(()),
            Some(word) => Err(format!("`{word}` is too much")),
        }
    }
}

pub fn number<N: FromStr>(word: &str) -> Result<N, String> {
    let number = word.trim().parse();
    number.map_err(|_| format!("`{word}` is no number"))
}

/// Two digits a byte; `-` for none.
pub fn hex(bytes: &[u8]) -> String {
    match bytes {
        [] => "-".into(),
        _ => bytes.iter().map(|byte| format!("{byte:02x}")).collect(),
    }
}

pub fn bytes(word: &str) -> Result<Vec<u8>, String> {
    if word == "-" {
        return Ok(Vec::new());
    }
    let wrong = || format!("`{word}` is no row of bytes");
    let digits = word.bytes().all(|digit| digit.is_ascii_hexdigit());
    if !digits || word.is_empty() || !word.len().is_multiple_of(2) {
        return Err(wrong());
    }
    let pairs = (0..word.len()).step_by(2);
    let byte = |place: usize| u8::from_str_radix(&word[place..place + 2], 16);
    pairs
        .map(byte)
        .collect::<Result<_, _>>()
        .map_err(|_| wrong())
}

/// The parts of a text between separators; one inside quotes does not count.
pub fn outside_quotes<'a>(text: &'a str, separator: &str) -> Vec<&'a str> {
    let (mut parts, mut from) = (Vec::new(), 0);
    let (mut quoted, mut escaped) = (false, false);
    for (place, character) in text.char_indices() {
        match character {
            _ if escaped => escaped = false,
            '\\' if quoted => escaped = true,
            '"' => quoted = !quoted,
            _ if !quoted && place >= from && text[place..].starts_with(separator) => {
                parts.push(&text[from..place]);
                from = place + separator.len();
            }
            _ => {}
        }
    }
    parts.push(&text[from..]);
    parts
}

#[cfg(test)]
mod tests {
    use super::{bytes, hex, outside_quotes};

    #[test]
    fn a_separator_in_quotes_is_none() {
        let parts = outside_quotes(r#"a, "b, \", c", d"#, ", ");
        assert_eq!(parts, ["a", r#""b, \", c""#, "d"]);
        assert_eq!(outside_quotes("", ", "), [""]);
    }

    #[test]
    fn bytes_are_read_as_they_are_written() {
        for row in [&[][..], &[0], &[0x48, 0x53, 0xff]] {
            assert_eq!(bytes(&hex(row)).as_deref(), Ok(row));
        }
        for wrong in ["", "4", "4x", "+1", "é"] {
            assert!(bytes(wrong).is_err(), "{wrong}");
        }
    }
}
