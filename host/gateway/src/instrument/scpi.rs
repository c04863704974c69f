//! What the gateway must know of SCPI: how a command is spelled, whether a message asks for an answer,
//! and what stands inside quotes and blocks.

/// Each word long or short (its capitals), in any case; a leading colon may stand.
pub fn spells(name: &str, pattern: &str) -> bool {
    let name = name.strip_prefix(':').unwrap_or(name);
    let same = |(word, pattern): (&str, &str)| {
        let short = pattern.trim_end_matches(|c: char| c.is_ascii_lowercase());
        let query = pattern.strip_suffix('?').unwrap_or(pattern);
        let short_query = query.trim_end_matches(|c: char| c.is_ascii_lowercase());
        match (word.strip_suffix('?'), pattern.ends_with('?')) {
            (Some(word), true) => {
                word.eq_ignore_ascii_case(query) || word.eq_ignore_ascii_case(short_query)
            }
            (None, false) => word.eq_ignore_ascii_case(pattern) || word.eq_ignore_ascii_case(short),
            _ => false,
        }
    };
    let (given, wanted) = (name.split(':'), pattern.split(':'));
    given.clone().count() == wanted.clone().count() && given.zip(wanted).all(same)
}

/// The commands of a message: separated by semicolons that stand outside quotes and blocks.
pub fn commands(message: &[u8]) -> Vec<&[u8]> {
    let mut scan = Scan::default();
    let parts = message.split(|byte| scan.outside(*byte) && *byte == b';');
    let parts = parts.map(<[u8]>::trim_ascii);
    parts.filter(|part| !part.is_empty()).collect()
}

/// Some command's name ends in a question mark.
pub fn asks(message: &[u8]) -> bool {
    let query = |command: &[u8]| {
        let end = command.iter().position(u8::is_ascii_whitespace);
        command[..end.unwrap_or(command.len())].ends_with(b"?")
    };
    commands(message).into_iter().any(query)
}

/// Goes through a message or an answer byte by byte and knows what is inside quotes and blocks.
#[derive(Default)]
pub enum Scan {
    /// Where a block may begin.
    #[default]
    Start,
    /// Outside quotes and blocks.
    Plain,
    /// Inside quotes of this kind.
    Quoted(u8),
    /// `#` was read.
    Hash,
    /// Digits of a count still to come, and the count so far.
    Count(u8, usize),
    /// Bytes of a block still to come.
    Block(usize),
}

impl Scan {
    /// One more byte; true if it stands outside quotes and blocks.
    pub fn outside(&mut self, byte: u8) -> bool {
        let inside = matches!(self, Scan::Block(_) | Scan::Quoted(_));
        *self = self.next(byte);
        !inside
    }

    fn next(&self, byte: u8) -> Scan {
        let digit = byte.wrapping_sub(b'0');
        let count = |count: &usize| count * 10 + usize::from(digit);
        match (self, byte) {
            (Scan::Block(left @ 2..), _) => Scan::Block(left - 1),
            (Scan::Block(_), _) => Scan::Plain,
            (Scan::Quoted(open), _) if *open != byte => Scan::Quoted(*open),
            (Scan::Quoted(_), _) => Scan::Plain,
            (Scan::Hash, b'1'..=b'9') => Scan::Count(digit, 0),
            (Scan::Count(1, so_far), b'0'..=b'9') => match count(so_far) {
                0 => Scan::Plain,
                bytes => Scan::Block(bytes),
            },
            (Scan::Count(left, so_far), b'0'..=b'9') => Scan::Count(left - 1, count(so_far)),
            (Scan::Start, b'#') => Scan::Hash,
            (_, b'"' | b'\'') => Scan::Quoted(byte),
            (_, b',' | b';' | b' ') => Scan::Start,
            _ => Scan::Plain,
        }
    }
}

/// A message as a line: with a line feed at its end, if there is none yet outside quotes and blocks.
pub fn line(message: &[u8]) -> Vec<u8> {
    let mut scan = Scan::default();
    let outside = message.iter().map(|byte| scan.outside(*byte)).last();
    let mut line = message.to_vec();
    if outside != Some(true) || !line.ends_with(b"\n") {
        line.push(b'\n');
    }
    line
}

/// Finds the line feed that ends an answer, in as many pieces as it comes.
#[derive(Default)]
pub struct LineEnd {
    scan: Scan,
    /// The last byte was a carriage return outside quotes and blocks: it belongs to the line's end.
    pub after_return: bool,
}

impl LineEnd {
    /// The place of that line feed, if it is in these bytes.
    pub fn find(&mut self, bytes: &[u8]) -> Option<usize> {
        bytes.iter().position(|byte| {
            let outside = self.scan.outside(*byte);
            let ends = outside && *byte == b'\n';
            self.after_return = outside && (*byte == b'\r' || (ends && self.after_return));
            ends
        })
    }
}

#[cfg(test)]
mod tests {
    use super::{asks, commands, line, spells, LineEnd};

    #[test]
    fn long_and_short_in_any_case() {
        for name in ["MEASure:VOLTage:DC?", "meas:volt:dc?", ":MEAS:voltage:Dc?"] {
            assert!(spells(name, "MEASure:VOLTage:DC?"), "{name}");
        }
        for name in ["MEASU:VOLT:DC?", "MEAS:VOLT:DC", "MEAS:VOLT?", "MEAS?"] {
            assert!(!spells(name, "MEASure:VOLTage:DC?"), "{name}");
        }
    }

    #[test]
    fn what_asks() {
        for text in ["*IDN?", "VOLT 1; meas? 10,1\n", "DISP \"?\";*OPC?"] {
            assert!(asks(text.as_bytes()), "{text}");
        }
        for text in [
            "*RST",
            "DISP:TEXT \"ok?\"",
            "DISP 'a;b?'",
            "",
            ";;",
            "A ?",
            "W #15a;b?;",
        ] {
            assert!(!asks(text.as_bytes()), "{text}");
        }
        assert_eq!(commands(b" A ';' ;; B\n"), [&b"A ';'"[..], b"B"]);
    }

    #[test]
    fn where_answers_end() {
        for answer in [
            &b"+1.25E+00\n"[..],
            b"\n",
            b"\"a\nb\",2\n",
            b"#14\n\n\n\n\n",
            b"1;#13\nab;2\n",
            b"#203\n\n\n\n",
            b"#10\n",
            b"#x\n",
            b"#2\n",
            b"a#12\n",
        ] {
            let at = LineEnd::default().find(answer);
            assert_eq!(at, Some(answer.len() - 1), "{}", answer.escape_ascii());
        }
        for (answer, after_return) in [(&b"1\r\n"[..], true), (b"#11\r\n", false), (b"1\n", false)]
        {
            let mut end = LineEnd::default();
            assert!(end.find(answer).is_some() && end.after_return == after_return);
        }
    }

    #[test]
    fn messages_as_lines() {
        for (message, sent) in [
            (&b"*IDN?"[..], &b"*IDN?\n"[..]),
            (b"*IDN?\n", b"*IDN?\n"),
            (b"W #11\n", b"W #11\n\n"),
            (b"W #11 ", b"W #11 \n"),
            (b"", b"\n"),
        ] {
            assert_eq!(line(message), sent);
        }
    }
}
