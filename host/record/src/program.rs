//! What a program of this kit does with its command line and its standard output.

use std::io::Write;

/// The words behind the program's name; a byte that is no UTF-8 is shown as U+FFFD.
pub fn arguments() -> Vec<String> {
    let words = std::env::args_os().skip(1);
    words
        .map(|word| word.to_string_lossy().into_owned())
        .collect()
}

/// Prints a text. Where it is the program's result, a failure is to be told; a line of progress that
/// nobody reads is no failure.
pub fn print(text: &str) -> Result<(), String> {
    let mut out = std::io::stdout();
    let written = out.write_all(text.as_bytes()).and_then(|()| out.flush());
    written.map_err(|error| format!("standard output: {error}"))
}
