//! `journal --help` says how it is used.

use std::io::{self, BufWriter, Write};
use std::path::Path;
use std::process::ExitCode;

use journal::command::{parse, Command, HELP};
use journal::origin::Origin;
use journal::repair::{repair, Repaired};
use journal::{file, print, readings, Trouble};
use reference::verifier::{judge, Verdict};
use reference::Fresh;

fn main() -> ExitCode {
    let arguments = query::arguments().map_err(Trouble::CommandLine);
    let done = arguments.and_then(|words| run(&words));
    let Err(trouble) = done else {
        return ExitCode::SUCCESS;
    };
    // Nobody need be reading: the exit status says the same.
    let _ = match trouble {
        Trouble::NotAccepted { .. } => writeln!(io::stdout(), "{trouble}"),
        _ => writeln!(io::stderr(), "journal: {trouble}"),
    };
    ExitCode::from(trouble.exit_status())
}

fn run(words: &[String]) -> Result<(), Trouble> {
    match parse(words).map_err(Trouble::CommandLine)? {
        Command::Help => Ok(writeln!(io::stdout(), "{HELP}")?),
        Command::Print(path, stated) => print_book(&path, stated),
        Command::Readings(path, stated) => print_readings(&path, stated),
        Command::Repair { from, to } => repair_book(&from, &to),
    }
}

fn print_book(path: &Path, stated: Option<Fresh>) -> Result<(), Trouble> {
    let book = file::read(path)?;
    let origin = Origin::of(&book, stated);
    let mut out = BufWriter::new(io::stdout());
    let verdict = print::print(&book, origin.fresh(), &mut out)?;
    writeln!(out, "{}", origin.describe())?;
    if let Verdict::Accepted { .. } = verdict {
        writeln!(out, "{verdict}")?;
    }
    out.flush()?;
    accepted(verdict)
}

/// A book that is not accepted is printed as nothing else.
fn print_readings(path: &Path, stated: Option<Fresh>) -> Result<(), Trouble> {
    let book = file::read(path)?;
    let origin = Origin::of(&book, stated);
    let verdict = judge(origin.fresh(), &book);
    accepted(verdict)?;
    let mut out = BufWriter::new(io::stdout());
    writeln!(out, "{verdict}\n{}", origin.describe())?;
    readings::readings(&book, origin.fresh(), &mut out)?;
    Ok(out.flush()?)
}

fn accepted(verdict: Verdict) -> Result<(), Trouble> {
    match verdict {
        Verdict::Accepted { .. } => Ok(()),
        Verdict::Wrong { entry, fault } => Err(Trouble::NotAccepted { entry, fault }),
    }
}

fn repair_book(from: &Path, to: &Path) -> Result<(), Trouble> {
    let book = file::read(from)?;
    match repair(&book) {
        Repaired::NoJournal => Err(Trouble::NoJournal(from.into())),
        Repaired::ClosedAlready { entries } => Err(Trouble::NothingToRepair(from.into(), entries)),
        Repaired::Closed {
            book,
            entries,
            left_out,
        } => {
            file::write_new(to, &book)?;
            let left_out = left_out.describe();
            let to = to.display();
            Ok(writeln!(
                io::stdout(),
                "{to}: {entries} entries, {left_out}"
            )?)
        }
    }
}
