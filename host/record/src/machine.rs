//! The machine that something ran on.

use std::fs;
use std::path::Path;
use std::process::Command;

/// What is said where the machine does not tell.
pub const UNKNOWN: &str = "unknown";

fn model(cpuinfo: &str) -> String {
    let names = |line: &&str| line.starts_with("model name");
    let mut lines = cpuinfo.lines().filter(names);
    let count = lines.clone().count();
    let name = lines.next().and_then(|line| line.split_once(':'));
    name.map_or(UNKNOWN.into(), |(_, name)| {
        format!("{}, {count} processors", name.trim())
    })
}

/// The processor's name and how many there are.
pub fn cpu() -> String {
    model(&fs::read_to_string("/proc/cpuinfo").unwrap_or_default())
}

/// How many programs wanted a processor, on average of the last 1, 5 and 15 minutes.
pub fn load() -> String {
    let text = fs::read_to_string("/proc/loadavg").unwrap_or_default();
    let averages: Vec<&str> = text.split_whitespace().take(3).collect();
    match averages.len() {
        3 => averages.join(", "),
        _ => UNKNOWN.into(),
    }
}

/// What a command prints, without the last newline; None if it fails or does not exist.
pub fn printed(directory: &Path, command: &[&str]) -> Option<String> {
    let (program, arguments) = command.split_first()?;
    let mut run = Command::new(program);
    let output = run.args(arguments).current_dir(directory).output().ok()?;
    let text = String::from_utf8_lossy(&output.stdout)
        .trim_end()
        .to_owned();
    output.status.success().then_some(text)
}

/// A file's SHA-256, by the machine's own `sha256sum`.
pub fn sha256(file: &Path) -> Option<String> {
    let line = printed(Path::new("."), &["sha256sum", file.to_str()?])?;
    line.split_whitespace().next().map(str::to_owned)
}

#[cfg(test)]
mod tests {
    use super::{model, printed, UNKNOWN};
    use std::path::Path;

    #[test]
    fn the_processor_is_named_once_and_counted() {
        let two = "processor: 0\nmodel name\t: Quick 3\nprocessor: 1\nmodel name\t: Quick 3\n";
        assert_eq!(model(two), "Quick 3, 2 processors");
        assert_eq!(model(""), UNKNOWN);
    }

    #[test]
    fn a_command_that_fails_prints_nothing() {
        let here = Path::new(".");
        assert_eq!(printed(here, &["echo", "so"]).as_deref(), Some("so"));
        assert_eq!(printed(here, &["false"]), None);
        assert_eq!(printed(here, &["no such program"]), None);
    }
}
