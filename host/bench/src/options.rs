//! The command line.

use crate::timing::{library, ordinary};
use crate::workload::{Plan, Workload};

pub const USAGE: &str = "\
usage: bench [--repetitions N] [--only NAME] [--write FILE] [--plot FILE]
       bench --instructions EVENTS [--only NAME] [--write FILE]
       bench --from PAGE --plot FILE
       bench --side library|ordinary [--events N] [--only NAME]

--only          one workload
--write         the page over the page in the file; what stands there from its first `##` on is kept
--instructions  instructions of a call, counted by callgrind over the first so many events of each
                workload; --write puts the table in the place of the one that the file has
--plot          the ratios as a picture; --from draws those of a page that is there and measures nothing
--side          runs each workload once on one side and prints nothing, for a profiler; --events runs
                the first N of its events";

/// Runs a workload on one side.
pub type Side = fn(&Workload) -> Vec<f64>;

pub struct Options {
    /// At least two: the noise is told from halves.
    pub repetitions: usize,
    pub only: Option<String>,
    pub write: Option<String>,
    pub plot: Option<String>,
    pub from: Option<String>,
    pub side: Option<Side>,
    /// Of each workload, the first so many.
    pub events: usize,
    pub instructions: Option<usize>,
}

impl Options {
    /// From the words of the command line; the error says what is wrong with them.
    pub fn read(mut words: impl Iterator<Item = String>) -> Result<Options, String> {
        let mut options = Options {
            repetitions: 31,
            only: None,
            write: None,
            plot: None,
            from: None,
            side: None,
            events: usize::MAX,
            instructions: None,
        };
        while let Some(name) = words.next() {
            let value = words.next().ok_or(format!("`{name}` without a value"))?;
            match name.as_str() {
                "--repetitions" => options.repetitions = repetitions(&value)?,
                "--only" => options.only = Some(value),
                "--write" => options.write = Some(value),
                "--plot" => options.plot = Some(value),
                "--from" => options.from = Some(value),
                "--side" => options.side = Some(side(&value)?),
                "--events" => options.events = events(&value)?,
                "--instructions" => options.instructions = Some(events(&value)?),
                _ => return Err(format!("no option `{name}`")),
            }
        }
        Ok(options)
    }

    /// The workloads that are to run; the error lists the names that there are.
    pub fn chosen(&self, mut plans: Vec<Plan>) -> Result<Vec<Plan>, String> {
        let Some(wanted) = &self.only else {
            return Ok(plans);
        };
        let names: Vec<&str> = plans.iter().map(|plan| &*plan.name).collect();
        if !names.contains(&wanted.as_str()) {
            let names = names.join("\n  ");
            return Err(format!("no workload `{wanted}`; there are\n  {names}"));
        }
        plans.retain(|plan| plan.name == *wanted);
        Ok(plans)
    }
}

fn repetitions(value: &str) -> Result<usize, String> {
    let number = value.parse().ok().filter(|number| *number > 1);
    number.ok_or(format!("`{value}` repetitions: at least 2 are needed"))
}

fn events(value: &str) -> Result<usize, String> {
    let number = value.parse().ok().filter(|number| *number > 0);
    number.ok_or(format!("`{value}` events: at least 1 is needed"))
}

fn side(name: &str) -> Result<Side, String> {
    match name {
        "library" => Ok(library),
        "ordinary" => Ok(ordinary),
        _ => Err(format!("no side `{name}`")),
    }
}

#[cfg(test)]
mod tests {
    use super::Options;
    use crate::workload;

    fn read(words: &str) -> Result<Options, String> {
        Options::read(words.split(", ").map(str::to_owned))
    }

    #[test]
    fn a_wrong_name_is_answered_with_the_names() {
        let options = read("--only, nothing").expect("understood");
        let what = options.chosen(workload::all());
        let what = what.err().expect("no such name");
        assert!(what.starts_with("no workload `nothing`; there are\n  02's mix\n"));
    }

    #[test]
    fn every_name_chooses_one() {
        for plan in workload::all() {
            let words = ["--only".to_owned(), plan.name.clone()];
            let options = Options::read(words.into_iter()).expect("understood");
            let chosen = options.chosen(workload::all()).expect("there");
            let names: Vec<&String> = chosen.iter().map(|plan| &plan.name).collect();
            assert_eq!(names, [&plan.name]);
        }
    }

    #[test]
    fn what_is_not_understood_is_named() {
        let told = |words| read(words).err().expect("not understood");
        assert_eq!(
            told("--repetitions, 1"),
            "`1` repetitions: at least 2 are needed"
        );
        assert_eq!(told("--fast, yes"), "no option `--fast`");
        assert_eq!(told("--only"), "`--only` without a value");
        assert_eq!(told("--side, left"), "no side `left`");
        assert_eq!(
            told("--instructions, 0"),
            "`0` events: at least 1 is needed"
        );
    }
}
