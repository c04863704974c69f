//! Instructions of one call, counted by callgrind: this program runs itself under it, a workload and a
//! side at a time.

use std::fs;
use std::process::{self, Command, Stdio};

use crate::workload::Plan;

/// The head of the table, by which it is found again.
pub const HEAD: &str =
    "| workload | library | ordinary | ratio | mispredicted, library | ordinary |";

/// A side with the calls that are counted, each from its first instruction to its return.
struct Counted {
    side: &'static str,
    calls: [&'static str; 3],
    /// With a journal kept: these call the others.
    kept: [&'static str; 2],
}

const LIBRARY: Counted = Counted {
    side: "library",
    calls: ["hislip_deliver", "hislip_answer", "hislip_journal_forward"],
    kept: ["hislip_keep_deliver", "hislip_keep_answer"],
};

const ORDINARY: Counted = Counted {
    side: "ordinary",
    calls: ["*Server>::deliver", "*Server::answer", "*journal::forward*"],
    kept: ["*Server>::keep_deliver", "*Server>::keep_answer"],
};

impl Counted {
    fn calls(&self, kept: bool) -> &[&'static str] {
        match kept {
            true => &self.kept,
            false => &self.calls,
        }
    }
}

/// Counting begins with this function, when the sessions are open.
const FROM: &str = "*timing::timed_events*";

/// For each call; mispredicted by callgrind's simple model of a processor.
struct Counts {
    instructions: f64,
    mispredicted: f64,
}

/// The table of all workloads, from so many events of each; says on the error stream how far it is. A
/// cleared buffer makes no difference to what is counted.
pub fn table(plans: &[Plan], events: usize) -> Result<String, String> {
    let plans: Vec<&Plan> = plans.iter().filter(|plan| !plan.clear).collect();
    let mut table = format!("{HEAD}\n|---|---|---|---|---|---|\n");
    for (place, plan) in (1..).zip(&plans) {
        eprintln!("bench: {place} of {}, {}", plans.len(), plan.name);
        let library = count(&LIBRARY, plan, events)?;
        let ordinary = count(&ORDINARY, plan, events)?;
        table += &format!(
            "| {} | {:.0} | {:.0} | {:.2} | {:.1} | {:.1} |\n",
            plan.name,
            library.instructions,
            ordinary.instructions,
            library.instructions / ordinary.instructions,
            library.mispredicted,
            ordinary.mispredicted
        );
    }
    Ok(table)
}

fn count(counted: &Counted, plan: &Plan, events: usize) -> Result<Counts, String> {
    let program = std::env::current_exe().map_err(|error| error.to_string())?;
    let name = format!("bench-{}-{}.callgrind", process::id(), counted.side);
    let found = std::env::temp_dir().join(name);
    let mut command = Command::new("valgrind");
    command.args(["--tool=callgrind", "--branch-sim=yes", "-q"]);
    command.arg(format!("--zero-before={FROM}"));
    let calls = counted.calls(plan.kept).iter();
    command.args(calls.map(|call| format!("--toggle-collect={call}")));
    command.arg(format!("--callgrind-out-file={}", found.display()));
    command.arg(program).args(["--side", counted.side]);
    command.args(["--only", &plan.name, "--events", &events.to_string()]);
    let ran = command.stdout(Stdio::null()).status();
    let ran = ran.map_err(|error| format!("valgrind: {error}"))?;
    let text = fs::read_to_string(&found).unwrap_or_default();
    let _ = fs::remove_file(&found);
    if !ran.success() {
        return Err("valgrind did not count".into());
    }
    let calls = plan.make(events).steps.len() as f64;
    let totals = totals(&text).filter(|totals| totals[0] > 0.0);
    let [instructions, _, conditional, _, indirect] =
        totals.ok_or("callgrind tells no totals: are the calls inlined?")?;
    Ok(Counts {
        instructions: instructions / calls,
        mispredicted: (conditional + indirect) / calls,
    })
}

/// Instructions, conditional branches and those mispredicted, indirect ones and those mispredicted.
fn totals(text: &str) -> Option<[f64; 5]> {
    let line = text.lines().find_map(|line| line.strip_prefix("totals:"))?;
    let numbers: Result<Vec<f64>, _> = line.split_whitespace().map(str::parse).collect();
    let mut numbers = numbers.ok()?;
    // Zeros at the end of the line are left out.
    numbers.resize(5, 0.0);
    numbers.try_into().ok()
}

/// A page with its table of instructions put in the place of the one that it has.
pub fn replaced(page: &str, table: &str) -> Result<String, String> {
    let start = page
        .find(HEAD)
        .ok_or("the page has no table of instructions")?;
    let old = page[start..]
        .lines()
        .take_while(|line| line.starts_with('|'));
    let length: usize = old.map(|line| line.len() + 1).sum();
    let end = page.len().min(start + length);
    Ok(page[..start].to_owned() + table + &page[end..])
}

#[cfg(test)]
mod tests {
    use super::{replaced, totals, HEAD};

    #[test]
    fn totals_are_five_numbers() {
        let text = "events: Ir Bc Bcm Bi Bim\ntotals: 100 20 3 4 1\n";
        assert_eq!(totals(text), Some([100.0, 20.0, 3.0, 4.0, 1.0]));
        assert_eq!(totals("totals: 9 5\n"), Some([9.0, 5.0, 0.0, 0.0, 0.0]));
        assert_eq!(totals(""), None);
    }

    #[test]
    fn a_table_takes_the_place_of_the_old_one() {
        let page = format!("before\n\n{HEAD}\n|---|\n| a | 1 |\n\nafter\n\n| other |\n");
        let table = format!("{HEAD}\n|---|\n| b | 2 |\n| c | 3 |\n");
        let expected = format!("before\n\n{table}\nafter\n\n| other |\n");
        assert_eq!(replaced(&page, &table), Ok(expected));
        assert!(replaced("nothing", &table).is_err());
    }
}
