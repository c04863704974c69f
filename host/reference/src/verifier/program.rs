//! The program `verify`, run beside the reference's verifier by the comparisons.

use std::path::Path;
use std::process::Command;

use crate::mode::Fresh;

/// What the program prints of the book in a file.
pub fn line(program: &Path, file: &Path, fresh: Fresh) -> String {
    let run = Command::new(program)
        .arg(file)
        .arg(format!("{:04x}", fresh.vendor))
        .arg(fresh.prefers.name())
        .output()
        .expect("the program runs");
    String::from_utf8_lossy(&run.stdout).into_owned()
}
