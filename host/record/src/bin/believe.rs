//! `believe`: the definitions that a reader must believe, with their lines. Exit status 1 if a file
//! of the list is missing.

use std::process::ExitCode;

use record::{believe, program, tree};

fn main() -> ExitCode {
    let table = believe::table(&tree::root());
    match table.and_then(|table| program::print(&table)) {
        Ok(()) => ExitCode::SUCCESS,
        Err(what) => {
            eprintln!("believe: {what}");
            ExitCode::FAILURE
        }
    }
}
