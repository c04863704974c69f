//! `evidence --second ARCHIVE --write FILE`: one page of what was built, proved, run and measured in
//! this tree, and of what was not. Exit status 1 if something that was run went wrong. `make evidence`
//! does the builds and the measuring before it.

mod archive;
mod crates;
mod gate;
mod origin;
mod page;
mod runs;
mod section;
mod speed;

use std::path::PathBuf;
use std::process::ExitCode;

const USAGE: &str = "usage: evidence --second ARCHIVE --write FILE";

fn main() -> ExitCode {
    let words = record::program::arguments();
    let words: Vec<&str> = words.iter().map(String::as_str).collect();
    let ["--second", second, "--write", file] = words[..] else {
        eprintln!("{USAGE}");
        return ExitCode::from(2);
    };
    let page = page::collect(&record::tree::root(), &PathBuf::from(second));
    if let Err(error) = std::fs::write(file, page.text()) {
        eprintln!("evidence: {file}: {error}");
        return ExitCode::FAILURE;
    }
    // The page and the exit status say the same.
    let _ = record::program::print(&format!("evidence: {file}, {}\n", page.summary()));
    ExitCode::from(u8::from(!page.good()))
}
