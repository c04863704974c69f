//! Which tree, which toolchain, when and where.

use std::fs;
use std::path::Path;

use record::{date, machine, tree};

use crate::section::{table, Section};

/// The whole sum of the prover's logic, as it says it in each crate's log.
fn logic_sum(log: &str) -> Option<&str> {
    let line = log.lines().find(|line| line.starts_with("logic /"))?;
    line.split_whitespace()
        .find_map(|word| word.strip_prefix("sum="))
}

pub fn section(root: &Path) -> Section {
    let unknown = || machine::UNKNOWN.to_owned();
    let printed = |command: &[&str]| machine::printed(root, command).unwrap_or_else(unknown);
    let log = fs::read_to_string(root.join("target/log/server.say")).unwrap_or_default();
    let sum = logic_sum(&log).map_or_else(unknown, str::to_owned);
    let rows = [
        ("date", date::now()),
        ("commit", tree::commit(root).unwrap_or_else(unknown)),
        ("tree", tree::id(root).unwrap_or_else(unknown)),
        ("prover (`rt version`)", printed(&["rt", "version"])),
        ("sum of its logic", sum),
        ("host's compiler", printed(&["rustc", "--version"])),
        ("machine", machine::cpu()),
    ];
    let rows = rows.map(|(what, told)| [what.to_owned(), told]);
    Section::good("Tree and tools", table(["what", ""], rows))
}

#[cfg(test)]
mod tests {
    use super::logic_sum;

    #[test]
    fn the_sum_stands_behind_the_logics_files() {
        let log =
            "fn a: proved\nlogic /x.json: libraries=16 files=3 sum=09ab\nlogic=proved sum=09\n";
        assert_eq!(logic_sum(log), Some("09ab"));
        assert_eq!(logic_sum(""), None);
    }
}
