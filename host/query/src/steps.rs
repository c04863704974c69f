//! The command line: options, then steps that are done one after the other in one session.

use std::io::Write;
use std::time::Duration;

use crate::{Client, Settings, Trouble};

pub const HELP: &str = "\
usage: query [OPTION..] STEP..
options:
  --to ADDR:PORT       the server (127.0.0.1:4880)
  --sub-address NAME   the device (hislip0)
  --timeout-ms N       longest wait for an answer (5000)
  --overlap            overlap mode, by a device clear where the server begins otherwise
  --help
steps, done in order in one session:
  TEXT                 with a `?` it is sent and its answer is printed, beginning with `*` it is sent
  write TEXT           sends a message
  query TEXT           sends a message and prints the answer
  read                 prints an answer
  trigger              sends a Trigger
  status               prints the status byte
  clear                device clear
  lock STRING MS       shared lock, or exclusive if STRING is empty; waits at most MS milliseconds
  unlock               releases the exclusive lock, or else the shared one
  lockinfo             prints how many sessions hold a lock
  remote CODE          remote/local control, VISA's codes 0 to 6
exit status: 0 done, 1 not granted or not expected, 2 wrong command line, 3 cannot connect, 4 time-out,
  5 Error from the server, 6 FatalError, 7 connection lost, 8 an answer cannot be printed";

const LAST_REMOTE_CODE: u8 = 6;

#[derive(Debug, PartialEq, Eq)]
pub enum Step {
    Write(String),
    Query(String),
    Read,
    Trigger,
    Status,
    Clear,
    Lock(String, u32),
    Unlock,
    LockInfo,
    Remote(u8),
}

pub struct Command {
    pub settings: Settings,
    pub steps: Vec<Step>,
    pub help: bool,
}

fn number<T: std::str::FromStr>(text: &str, of: &str) -> Result<T, String> {
    let number = text.parse();
    number.map_err(|_| format!("{of} wants a number, not `{text}`"))
}

/// Reads the arguments; the text says what is wrong with them.
pub fn parse(arguments: impl IntoIterator<Item = String>) -> Result<Command, String> {
    let mut rest = arguments.into_iter();
    let mut command = Command {
        settings: Settings {
            to: "127.0.0.1:4880".into(),
            sub_address: "hislip0".into(),
            patience: Duration::from_secs(5),
            overlap: false,
        },
        steps: Vec::new(),
        help: false,
    };
    while let Some(word) = rest.next() {
        let mut next = || rest.next().ok_or(format!("{word} wants a value"));
        match &word[..] {
            "--help" => command.help = true,
            "--overlap" => command.settings.overlap = true,
            "--to" => command.settings.to = next()?,
            "--sub-address" => command.settings.sub_address = next()?,
            "--timeout-ms" => {
                let patience = Duration::from_millis(number(&next()?, &word)?);
                command.settings.patience = patience;
            }
            _ => command.steps.push(step(&word, &mut next)?),
        }
    }
    match command.steps.is_empty() && !command.help {
        true => Err("nothing to do".into()),
        false => Ok(command),
    }
}

fn step(word: &str, next: &mut impl FnMut() -> Result<String, String>) -> Result<Step, String> {
    Ok(match word {
        "write" => Step::Write(next()?),
        "query" => Step::Query(next()?),
        "read" => Step::Read,
        "trigger" => Step::Trigger,
        "status" => Step::Status,
        "clear" => Step::Clear,
        "lock" => Step::Lock(next()?, number(&next()?, "lock STRING MS")?),
        "unlock" => Step::Unlock,
        "lockinfo" => Step::LockInfo,
        "remote" => match number(&next()?, "remote")? {
            code @ 0..=LAST_REMOTE_CODE => Step::Remote(code),
            code => return Err(format!("remote wants a code from 0 to 6, not {code}")),
        },
        _ if word.starts_with('-') => return Err(format!("unknown option {word}")),
        _ if word.contains('?') => Step::Query(word.into()),
        _ if word.starts_with('*') => Step::Write(word.into()),
        _ => return Err(format!("unknown step `{word}`; to send it: write '{word}'")),
    })
}

impl Step {
    /// Does the step; what it has to print goes to `out`.
    pub fn run(&self, client: &mut Client, out: &mut impl Write) -> Result<(), Trouble> {
        let line = match self {
            Step::Write(text) => return client.write(text.as_bytes()),
            Step::Query(text) => client.query(text.as_bytes())?,
            Step::Read => client.read()?,
            Step::Trigger => return client.trigger(),
            Step::Status => client.status()?.to_string().into_bytes(),
            Step::Clear => return client.clear(),
            Step::Lock(string, wait) => return client.lock(string.as_bytes(), *wait),
            Step::Unlock => format!("{} lock released", client.unlock()?).into_bytes(),
            Step::LockInfo => lock_info(client.lock_info()?).into_bytes(),
            Step::Remote(code) => return client.remote(*code),
        };
        let printed = out.write_all(&line).and_then(|()| out.write_all(b"\n"));
        printed
            .and_then(|()| out.flush())
            .map_err(Trouble::NotPrinted)
    }
}

fn lock_info((exclusive, holders): (bool, u32)) -> String {
    let kind = if exclusive {
        "exclusive"
    } else {
        "no exclusive"
    };
    format!("{holders} sessions hold a lock, {kind} lock")
}
