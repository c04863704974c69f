//! What can go wrong, as one line and as an exit status.

use std::fmt;
use std::io;
use std::path::PathBuf;

use reference::verifier::Fault;

pub const WRONG_COMMAND_LINE: u8 = 2;

#[derive(Debug)]
pub enum Trouble {
    /// It is printed as the result, on standard output.
    NotAccepted {
        entry: u64,
        fault: Fault,
    },
    NoJournal(PathBuf),
    CommandLine(String),
    NoSuchFile(PathBuf),
    Directory(PathBuf),
    CannotRead(PathBuf, String),
    NothingToRepair(PathBuf, u64),
    CannotWrite(PathBuf, String),
    NotPrinted(io::Error),
}

impl Trouble {
    pub fn exit_status(&self) -> u8 {
        match self {
            Trouble::NotAccepted { .. } | Trouble::NoJournal(_) => 1,
            Trouble::CommandLine(_) => WRONG_COMMAND_LINE,
            Trouble::NoSuchFile(_) => 3,
            Trouble::Directory(_) => 4,
            Trouble::CannotRead(..) => 5,
            Trouble::NothingToRepair(..) => 6,
            Trouble::CannotWrite(..) | Trouble::NotPrinted(_) => 7,
        }
    }
}

impl From<io::Error> for Trouble {
    fn from(error: io::Error) -> Trouble {
        Trouble::NotPrinted(error)
    }
}

impl fmt::Display for Trouble {
    fn fmt(&self, f: &mut fmt::Formatter<'_>) -> fmt::Result {
        match self {
            Trouble::NotAccepted { entry, fault } => {
                write!(f, "not accepted: entry {entry}, {fault}")
            }
            Trouble::NoJournal(file) => {
                write!(
                    f,
                    "{}: no journal, it does not begin with an entry",
                    file.display()
                )
            }
            Trouble::CommandLine(wrong) => write!(f, "{wrong}; journal --help says how"),
            Trouble::NoSuchFile(file) => write!(f, "{}: no such file", file.display()),
            Trouble::Directory(file) => write!(f, "{}: a directory, not a journal", file.display()),
            Trouble::CannotRead(file, why) => {
                write!(f, "{}: cannot be read: {why}", file.display())
            }
            Trouble::NothingToRepair(file, entries) => {
                let file = file.display();
                write!(
                    f,
                    "{file}: closed already, {entries} entries: nothing to repair"
                )
            }
            Trouble::CannotWrite(file, why) => {
                write!(f, "{}: cannot be written: {why}", file.display())
            }
            Trouble::NotPrinted(error) => write!(f, "standard output: {error}"),
        }
    }
}

impl std::error::Error for Trouble {}
