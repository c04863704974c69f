//! Allowed commands from a file: a pattern a line. Empty lines, and lines that begin with `#` as no pattern
//! does, are passed over.

use hislip::{BadList, Frames, MessageType, Mode, Server, HEADER, NOT_ALLOWED};

use crate::describe;

/// Patterns with the lines that they stand in.
#[derive(Debug, PartialEq, Eq)]
pub struct List {
    /// In their order.
    pub patterns: Vec<Vec<u8>>,
    /// Each one's line, from 1.
    lines: Vec<usize>,
}

impl List {
    /// The list of a file's bytes. A carriage return before the end of a line belongs to the end.
    pub fn read(bytes: &[u8]) -> List {
        let ended = bytes.strip_suffix(b"\n").unwrap_or(bytes);
        let lines = ended.split(|byte| *byte == b'\n');
        let lines = lines.map(|line| line.strip_suffix(b"\r").unwrap_or(line));
        let told = |(_, line): &(usize, &[u8])| !line.is_empty() && !line.starts_with(b"#");
        let (lines, patterns) = (1..)
            .zip(lines)
            .filter(told)
            .map(|(number, line)| (number, line.to_vec()))
            .unzip();
        List { patterns, lines }
    }

    /// What the server says of it. The text names the file, the line and the place, with a caret under it.
    pub fn check(&self, file: &str) -> Result<(), String> {
        let mut server = Server::new(*b"EX", Mode::Synchronized);
        let set = server.patterns(&self.patterns);
        set.map_err(|bad| self.told(file, &bad))
    }

    fn told(&self, file: &str, bad: &BadList) -> String {
        let (line, column) = match bad {
            BadList::Pattern { number, place, .. } => (self.lines.get(*number), place + 1),
            BadList::TooMany => (self.lines.get(hislip::PATTERNS), 1),
        };
        let line = line.copied().unwrap_or(0);
        format!("{file}:{line}:{column}: {bad}")
    }
}

/// Reads and checks a file; the text says what is wrong.
pub fn of_file(file: &str) -> Result<List, String> {
    let bytes = std::fs::read(file).map_err(|error| format!("cannot read {file}: {error}"))?;
    let list = List::read(&bytes);
    list.check(file).map(|()| list)
}

/// What the log tells of a command that is not allowed; None of any other message.
pub(crate) fn not_allowed(message: &[u8], output: &[u8]) -> Option<String> {
    let mut told = Frames::new(output);
    let error = |code| (Some(MessageType::Error), code);
    let is = told.any(|frame| (frame.message_type(), frame.code) == error(NOT_ALLOWED));
    let command = describe::text(message.get(HEADER..)?);
    is.then(|| format!("Error {NOT_ALLOWED} sent: {command} is not allowed"))
}

#[cfg(test)]
mod tests {
    use super::List;

    #[test]
    fn lines_of_a_file() {
        let list = List::read(b"# two\n*IDN?\r\n\nREAD?");
        assert_eq!(list.patterns, [b"*IDN?".to_vec(), b"READ?".to_vec()]);
        assert_eq!(list.lines, [2, 4]);
        assert_eq!(List::read(b"").patterns, [b""; 0]);
        assert_eq!(List::read(b"# none\n").check("none"), Ok(()));
    }

    #[test]
    fn a_bad_line_is_told_with_a_caret() {
        let list = List::read(b"# list\n*IDN?\n\nMEASure[:VoLTage]?\n");
        let told = [
            "my.list:4:12: refusal 11: command pattern 1 goes wrong at byte 11",
            "MEASure[:VoLTage]?",
            "           ^",
        ];
        assert_eq!(list.check("my.list"), Err(told.join("\n")));
        let short = List::read(b"A[:B\n");
        let said = short.check("f").unwrap_err();
        assert_eq!(said.lines().last(), Some("    ^"), "{said}");
        let many = List::read("READ?\n".repeat(33).as_bytes());
        let said = "f:33:1: refusal 12: above 32 command patterns".to_string();
        assert_eq!(many.check("f"), Err(said));
    }
}
