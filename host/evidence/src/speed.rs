//! The speed table, if it is about this archive.

use std::fs;
use std::path::Path;

use record::machine;

use crate::section::Section;

const TITLE: &str = "Speed";
const HOW: &str = "`make bench` measures";

/// The line that says where a page comes from, and its first table.
fn told<'a>(page: &'a str, archive: &str) -> Option<(&'a str, Vec<&'a str>)> {
    let origin = page.lines().find(|line| line.starts_with("Measured "))?;
    let rows = page.lines().skip_while(|line| !line.starts_with('|'));
    let rows = rows.take_while(|line| line.starts_with('|')).collect();
    origin.contains(archive).then_some((origin, rows))
}

pub fn section(root: &Path) -> Section {
    let page = fs::read_to_string(root.join("target/speed.md")).unwrap_or_default();
    let archive = machine::sha256(Path::new(hislip::ARCHIVE));
    match archive.and_then(|archive| told(&page, &archive)) {
        None if page.is_empty() => Section::not_run(TITLE, HOW),
        None => Section::not_run(
            TITLE,
            &format!("the last table is about another archive; {HOW}"),
        ),
        Some((origin, rows)) => {
            let unit = "Nanoseconds per event; docs/SPEED.md says how they are taken.";
            let body = format!("{origin}\n\n{unit}\n\n{}\n", rows.join("\n"));
            Section::good(TITLE, body)
        }
    }
}

#[cfg(test)]
mod tests {
    use super::told;

    #[test]
    fn a_table_counts_for_its_own_archive() {
        let page =
            "# Speed\n\nMeasured now, archive ab12, on x.\n\n| w |\n|---|\n| m |\n\n| other |\n";
        let (origin, rows) = told(page, "ab12").expect("this archive");
        assert!(origin.ends_with("on x."));
        assert_eq!(rows, ["| w |", "|---|", "| m |"]);
        assert_eq!(told(page, "cd34"), None);
        assert_eq!(told("", "ab12"), None);
    }
}
