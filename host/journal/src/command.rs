//! The command line.

use std::path::PathBuf;

use reference::{Fresh, Mode};

pub const HELP: &str = "\
usage: journal print FILE [VENDOR MODE]
       journal readings FILE [VENDOR MODE]
       journal repair FILE [TO]
  print     each entry as a line: number, clock, session, message, MessageID, command or reading, locks;
            the verdict stands last
  readings  the verdict first, in the words of `verify`; if the journal is accepted, each answer with its command,
            the commands that acted on the instrument since the session's first, who else acted in between, and
            whether the session held the exclusive lock all the while. A journal that is not accepted is
            `not accepted: entry N, kind` and nothing else
  repair    the whole entries of a journal cut short, closed, in a new file (TO; FILE.repaired)
VENDOR, four hex digits, and MODE, synchronized or overlap, are the server's that kept the journal; without them
they are what the journal itself says. A file has at most 2,147,483,648 bytes, and is held in memory.
exit status: 0 done, 1 not accepted (print and readings) or no journal (repair), 2 wrong command line, 3 no such
  file, 4 a directory, 5 the file cannot be read, 6 nothing to repair, 7 the result cannot be written";

#[derive(Clone, Debug, PartialEq, Eq)]
pub enum Command {
    Help,
    /// The server is stated, or the journal says it.
    Print(PathBuf, Option<Fresh>),
    Readings(PathBuf, Option<Fresh>),
    Repair {
        from: PathBuf,
        to: PathBuf,
    },
}

/// Reads the arguments; the text says what is wrong with them.
pub fn parse(arguments: &[String]) -> Result<Command, String> {
    let words: Vec<&str> = arguments.iter().map(String::as_str).collect();
    match words[..] {
        ["--help"] => Ok(Command::Help),
        ["print", file, ref server @ ..] => Ok(Command::Print(file.into(), stated(server)?)),
        ["readings", file, ref server @ ..] => Ok(Command::Readings(file.into(), stated(server)?)),
        ["repair", from] => Ok(repair(from, &format!("{from}.repaired"))),
        ["repair", from, to] => Ok(repair(from, to)),
        ["repair", _, _, more, ..] => Err(format!("`{more}` is too much")),
        ["print" | "readings" | "repair"] => Err("a file is missing".into()),
        [] => Err("a command is missing".into()),
        [other, ..] => Err(format!("no command `{other}`")),
    }
}

fn repair(from: &str, to: &str) -> Command {
    Command::Repair {
        from: from.into(),
        to: to.into(),
    }
}

fn stated(words: &[&str]) -> Result<Option<Fresh>, String> {
    match *words {
        [] => Ok(None),
        [_] => Err("a mode is missing".into()),
        [number, mode] => Ok(Some(Fresh {
            vendor: vendor(number)?,
            prefers: prefers(mode)?,
        })),
        [_, _, more, ..] => Err(format!("`{more}` is too much")),
    }
}

fn vendor(word: &str) -> Result<u16, String> {
    let digits = word.len() == 4 && word.bytes().all(|digit| digit.is_ascii_hexdigit());
    let number = u16::from_str_radix(word, 16).ok().filter(|_| digits);
    number.ok_or_else(|| format!("a vendor number is four hex digits, not `{word}`"))
}

fn prefers(word: &str) -> Result<Mode, String> {
    let modes = [Mode::Synchronized, Mode::Overlap];
    let mode = modes.into_iter().find(|mode| mode.name() == word);
    mode.ok_or_else(|| format!("a mode is synchronized or overlap, not `{word}`"))
}

#[cfg(test)]
mod tests {
    use super::{parse, Command};
    use reference::{Fresh, Mode};

    fn read(line: &str) -> Result<Command, String> {
        let words: Vec<String> = line.split_whitespace().map(String::from).collect();
        parse(&words)
    }

    #[test]
    fn commands_are_read() {
        let overlap = Fresh {
            vendor: 0x4558,
            prefers: Mode::Overlap,
        };
        assert_eq!(read("print a"), Ok(Command::Print("a".into(), None)));
        let readings = Command::Readings("a".into(), Some(overlap));
        assert_eq!(read("readings a 4558 overlap"), Ok(readings));
        let repair = |to: &str| Command::Repair {
            from: "a".into(),
            to: to.into(),
        };
        assert_eq!(read("repair a"), Ok(repair("a.repaired")));
        assert_eq!(read("repair a b"), Ok(repair("b")));
        assert_eq!(read("--help"), Ok(Command::Help));
    }

    #[test]
    fn what_is_wrong_is_said() {
        for (line, told) in [
            ("", "a command is missing"),
            ("judge a", "no command `judge`"),
            ("print", "a file is missing"),
            ("repair", "a file is missing"),
            ("print a 4558", "a mode is missing"),
            ("print a 4558 overlap x", "`x` is too much"),
            ("repair a b c", "`c` is too much"),
            (
                "print a EX overlap",
                "a vendor number is four hex digits, not `EX`",
            ),
            (
                "print a +558 overlap",
                "a vendor number is four hex digits, not `+558`",
            ),
            (
                "readings a 4558 fast",
                "a mode is synchronized or overlap, not `fast`",
            ),
        ] {
            assert_eq!(read(line), Err(told.into()), "{line}");
        }
    }
}
