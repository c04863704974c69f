//! The gate's verdict on this tree, and the edits that it saw refused.

use std::fs;
use std::path::Path;

use record::tree;

use crate::section::{table, Section, State};

const TITLE: &str = "The gate";
const HOW: &str = "`make test` proves every crate, tries every edit and runs the host kit's tests";

/// How many edits of a crate a gate's log says were refused.
fn refused(log: &str, name: &str) -> usize {
    let begin = format!("must-fail {name}/");
    let refused = |line: &&str| line.contains(&begin) && line.contains(": refused, as it must be");
    log.lines().filter(refused).count()
}

/// The crates that have edits, with how many.
fn edits(root: &Path) -> Vec<(String, usize)> {
    let crates = fs::read_dir(root.join("crates"))
        .into_iter()
        .flatten()
        .flatten();
    let count = |folder: &Path| {
        let files = fs::read_dir(folder).into_iter().flatten().flatten();
        files
            .filter(|file| file.path().extension().is_some_and(|end| end == "edit"))
            .count()
    };
    let named = |entry: fs::DirEntry| {
        let name = entry.file_name().to_string_lossy().into_owned();
        (name, count(&entry.path().join("must-fail")))
    };
    let mut edits: Vec<_> = crates.map(named).filter(|(_, count)| *count > 0).collect();
    edits.sort();
    edits
}

/// What is said of the gate: the tree that it passed last, its log, and the tree of now.
fn verdict(passed: Option<&str>, log: Option<&str>, now: Option<&str>) -> Result<String, String> {
    let (Some(passed), Some(now)) = (passed, now) else {
        return Err(HOW.into());
    };
    if passed.trim() != now {
        return Err(format!(
            "it passed last on tree {}, which is not this one; {HOW}",
            passed.trim()
        ));
    }
    let last = |begin: &str| {
        log?.lines()
            .rev()
            .find(|line| line.starts_with(begin) || line.ends_with(begin))
    };
    let verdict = last(" failed").ok_or("its log is not there any more")?;
    let time = last("gate: ").unwrap_or("its time was not kept");
    Ok(format!("Passed on this tree: {verdict}; {time}.\n"))
}

pub fn section(root: &Path) -> Section {
    let read = |name: &str| fs::read_to_string(root.join("target").join(name)).ok();
    let (passed, log) = (read("gate-passed"), read("gate.log"));
    let now = tree::id(root);
    let edits = edits(root);
    let all: usize = edits.iter().map(|(_, count)| count).sum();
    match verdict(passed.as_deref(), log.as_deref(), now.as_deref()) {
        Err(why) => Section {
            title: TITLE,
            state: State::NotRun,
            body: format!("Not run: {why}. The tree has {all} edits to be refused.\n"),
        },
        Ok(told) => {
            let log = log.unwrap_or_default();
            let refused = |name: &str| refused(&log, name);
            let sum: usize = edits.iter().map(|(name, _)| refused(name)).sum();
            let row = |(name, count): &(String, usize)| {
                [name.clone(), count.to_string(), refused(name).to_string()]
            };
            let table = table(["crate", "edits", "refused"], edits.iter().map(row));
            let body = format!("{told}\n{table}\n{sum} of {all} edits refused.\n");
            Section::when(TITLE, sum == all, body)
        }
    }
}

#[cfg(test)]
mod tests {
    use super::{refused, verdict};

    const LOG: &str = "rt: must-fail wire/a: refused, as it must be (3 s)\n\
                       rt: must-fail wire/b: NOT REFUSED: the crate is still proved (2 s)\n\
                       rt: must-fail wired/c: refused, as it must be (2 s)\n\
                       203 passed, 0 failed\ngate: 900 s\n";

    #[test]
    fn refused_edits_are_counted_by_crate() {
        assert_eq!(
            (
                refused(LOG, "wire"),
                refused(LOG, "wired"),
                refused(LOG, "model")
            ),
            (1, 1, 0)
        );
    }

    #[test]
    fn a_verdict_is_about_this_tree_alone() {
        let told = verdict(Some("abc\n"), Some(LOG), Some("abc")).expect("passed");
        assert_eq!(
            told,
            "Passed on this tree: 203 passed, 0 failed; gate: 900 s.\n"
        );
        let other =
            verdict(Some("abc\n"), Some(LOG), Some("abc, with changes")).expect_err("another");
        assert!(other.starts_with("it passed last on tree abc"), "{other}");
        assert!(verdict(None, Some(LOG), Some("abc")).is_err());
        assert!(verdict(Some("abc"), None, Some("abc")).is_err());
    }
}
