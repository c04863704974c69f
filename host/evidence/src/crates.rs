//! The crates as the prover found them, from the logs of `host/prove.sh`: `NAME.out` has the verdict,
//! `NAME.say` all that was said.

use std::fs;
use std::path::Path;

use crate::section::{table, Section};

const TITLE: &str = "Crates";

/// What a crate's log says of it.
#[derive(Debug, Default, PartialEq, Eq)]
struct Proved {
    functions: usize,
    axioms: usize,
    /// The functions that are taken as they are, by their libraries, if any.
    assumed: String,
    /// How long it took, and whether some of it was kept from before.
    when: String,
}

/// The crates of crates.txt, lower ones first.
fn names(list: &str) -> Vec<&str> {
    let lines = list.lines().filter(|line| !line.starts_with('#'));
    lines
        .filter_map(|line| line.split_once(':'))
        .filter_map(|(words, _)| words.split_whitespace().next())
        .collect()
}

/// The value of `name=..` in a line.
fn value<'a>(line: &'a str, name: &str) -> Option<&'a str> {
    let mut words = line.split_whitespace();
    words.find_map(|word| word.strip_prefix(name)?.strip_prefix('='))
}

/// None unless both say that the crate is proved.
fn proved(name: &str, out: &str, say: &str) -> Option<Proved> {
    let begin = format!("rt: {name} proved (");
    let when = out.lines().find_map(|line| line.strip_prefix(&begin))?;
    let verdict = say.lines().find(|line| line.starts_with("logic=proved"))?;
    let number = |what| value(verdict, what).map_or(Some(0), |number| number.parse().ok());
    let assumed = say.lines().filter_map(|line| line.strip_prefix("axioms "));
    let assumed: Vec<_> = assumed
        .filter(|told| !told.contains(": none reached"))
        .collect();
    Some(Proved {
        functions: number("functions")?,
        axioms: number("axioms")?,
        assumed: assumed.join("; "),
        when: when.trim_end_matches(')').to_owned(),
    })
}

fn row(name: &str, told: &Option<Proved>) -> [String; 4] {
    match told {
        Some(told) => {
            let assumed = match told.axioms {
                0 => "0".to_owned(),
                count => format!("{count} ({})", told.assumed),
            };
            [
                name.to_owned(),
                told.functions.to_string(),
                assumed,
                told.when.clone(),
            ]
        }
        None => [name, "NOT PROVED", "", ""].map(str::to_owned),
    }
}

pub fn section(root: &Path) -> Section {
    let list = fs::read_to_string(root.join("crates.txt")).unwrap_or_default();
    let read = |name: &str| {
        let log = |end: &str| {
            let log = root.join("target/log").join(name).with_extension(end);
            fs::read_to_string(log).unwrap_or_default()
        };
        proved(name, &log("out"), &log("say"))
    };
    let crates: Vec<_> = names(&list)
        .into_iter()
        .map(|name| (name, read(name)))
        .collect();
    let functions: usize = crates
        .iter()
        .flat_map(|(_, told)| told)
        .map(|told| told.functions)
        .sum();
    let head = ["crate", "functions proved", "axioms", "last proof"];
    let rows = crates.iter().map(|(name, told)| row(name, told));
    let body = format!("{}\n{functions} functions in all. A crate without functions has definitions and theorems.\n", table(head, rows));
    let all = !crates.is_empty() && crates.iter().all(|(_, told)| told.is_some());
    Section::when(TITLE, all, body)
}

#[cfg(test)]
mod tests {
    use super::{names, proved, row, Proved};

    const OUT: &str = "fn a: proved\nrt: examples proved (51 s)\n";
    const SAY: &str = "fn a: proved\naxioms libc: libc::write (1 of the 50 declared)\n\
                       logic=proved functions=43 axioms=1 sum=09\n";

    #[test]
    fn crates_by_name() {
        assert_eq!(
            names("# one line each\nwire:\nmodel: wire\n"),
            ["wire", "model"]
        );
        assert_eq!(names("low:\nffi staticlib: low\n"), ["low", "ffi"]);
    }

    #[test]
    fn a_log_is_read() {
        let told = proved("examples", OUT, SAY).expect("proved");
        let expected = Proved {
            functions: 43,
            axioms: 1,
            assumed: "libc: libc::write (1 of the 50 declared)".into(),
            when: "51 s".into(),
        };
        assert_eq!(told, expected);
        let none = proved("examples", OUT, &SAY.replace("axioms=1 ", ""));
        assert_eq!(none.map(|told| told.axioms), Some(0));
        let unused = format!("axioms io: none reached of the 3 declared\n{SAY}");
        assert_eq!(proved("examples", OUT, &unused), Some(expected));
    }

    #[test]
    fn what_is_not_proved_is_said_so() {
        assert_eq!(proved("wire", OUT, SAY), None, "another crate's log");
        let refused = SAY.replace("=proved", "=refused");
        assert_eq!(proved("examples", OUT, &refused), None);
        assert_eq!(proved("examples", "rt: examples FAILED", SAY), None);
        assert_eq!(row("wire", &None)[1], "NOT PROVED");
    }
}
