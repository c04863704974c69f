//! `query "*IDN?"`: one session with a HiSLIP server. `query --help` says the rest.

use std::io::Write;
use std::process::ExitCode;

use query::steps::{parse, Command, HELP};
use query::{Client, Trouble};

const WRONG_COMMAND_LINE: u8 = 2;
/// FatalError: poorly formed message header.
const POORLY_FORMED: u8 = 1;

fn main() -> ExitCode {
    match query::arguments().and_then(parse) {
        Err(wrong) => {
            complain(&format!("{wrong}; query --help says how"));
            ExitCode::from(WRONG_COMMAND_LINE)
        }
        Ok(Command { help: true, .. }) => {
            // Nobody may be reading any more.
            let _ = writeln!(std::io::stdout(), "{HELP}");
            ExitCode::SUCCESS
        }
        Ok(command) => match run(&command) {
            Ok(()) => ExitCode::SUCCESS,
            Err(trouble) => {
                complain(&trouble.to_string());
                ExitCode::from(trouble.exit_status())
            }
        },
    }
}

/// Nobody need be reading the error stream: the exit status says the same.
fn complain(what: &str) {
    let _ = writeln!(std::io::stderr(), "query: {what}");
}

fn run(command: &Command) -> Result<(), Trouble> {
    let mut client = Client::open(&command.settings)?;
    let mut out = std::io::stdout();
    for step in &command.steps {
        let done = step.run(&mut client, &mut out);
        if let Err(Trouble::Malformed(_)) = done {
            client.leave(POORLY_FORMED);
        }
        done?;
    }
    Ok(())
}
