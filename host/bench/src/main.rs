//! The library's speed beside an ordinary server's, as a Markdown page and a picture. Exit status 1 if an
//! answer or a byte differs, 2 if the command line is not understood ([`options::USAGE`]).

mod contender;
mod draw;
mod figures;
mod instructions;
mod kept;
mod options;
mod page;
mod plot;
mod script;
mod timing;
mod workload;

use std::fs;
use std::process::ExitCode;

use options::{Options, USAGE};
use record::program;
use workload::Plan;

fn main() -> ExitCode {
    let chosen = Options::read(program::arguments().into_iter()).and_then(|options| {
        let plans = options.chosen(workload::all())?;
        Ok((options, plans))
    });
    let (options, plans) = match chosen {
        Ok(chosen) => chosen,
        Err(what) => {
            eprintln!("bench: {what}\n\n{USAGE}");
            return ExitCode::from(2);
        }
    };
    match run(&options, &plans) {
        Ok(()) => ExitCode::SUCCESS,
        Err(error) => {
            eprintln!("bench: {error}");
            ExitCode::FAILURE
        }
    }
}

fn run(options: &Options, plans: &[Plan]) -> Result<(), String> {
    if let Some(side) = options.side {
        let run = |plan: &Plan| side(&plan.make(options.events));
        plans.iter().map(run).for_each(drop);
        return Ok(());
    }
    if let Some(events) = options.instructions {
        let table = instructions::table(plans, events)?;
        program::print(&table)?;
        if let Some(file) = &options.write {
            write(file, &instructions::replaced(&read(file)?, &table)?)?;
        }
        return Ok(());
    }
    let page = match &options.from {
        Some(file) => read(file)?,
        None => {
            let page = page::page(plans, options)?;
            let shown = program::print(&page);
            if options.write.is_none() {
                shown?;
            }
            page
        }
    };
    if let Some(file) = &options.write {
        let before = fs::read_to_string(file).unwrap_or_default();
        write(file, &with_hand_part(&page, &before))?;
    }
    if let Some(file) = &options.plot {
        write(file, &plot::draw(&page)?)?;
    }
    Ok(())
}

/// What stands in the file from its first `##` on is written by hand, and stays.
fn with_hand_part(page: &str, before: &str) -> String {
    let by_hand = before.find("\n## ").map_or("", |place| &before[place..]);
    page.to_owned() + by_hand
}

fn read(file: &str) -> Result<String, String> {
    fs::read_to_string(file).map_err(|error| format!("{file}: {error}"))
}

fn write(file: &str, text: &str) -> Result<(), String> {
    fs::write(file, text).map_err(|error| format!("{file}: {error}"))
}

#[cfg(test)]
mod tests {
    use super::with_hand_part;

    #[test]
    fn what_is_written_by_hand_stays() {
        let before = "# Speed\n\nold\n\n## Why\n\nso\n";
        assert_eq!(with_hand_part("new\n", before), "new\n\n## Why\n\nso\n");
        assert_eq!(with_hand_part("new\n", ""), "new\n");
    }
}
