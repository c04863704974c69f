//! `conform`: see `conform::command::USAGE`.

use std::process::ExitCode;

fn main() -> ExitCode {
    let program = std::env::args_os().next().unwrap_or("conform".into());
    let arguments = record::program::arguments();
    let arguments: Vec<&str> = arguments.iter().map(String::as_str).collect();
    let program = program.to_string_lossy();
    ExitCode::from(conform::command::execute(&program, &arguments))
}
