//! What was measured, as a Markdown page.

use std::path::Path;

use record::{date, machine, tree};
use reference::limits::{OUTPUT, SESSIONS};

use crate::options::Options;
use crate::timing::{compare, measure, Outcomes, Times, SLICE};
use crate::workload::{Plan, Workload};

/// The first cells of the table's head, by which it is found again.
pub const HEAD: &str = "| workload | events | library min | median | ordinary min | median | ratio of minima | of medians |";

/// The measured part of a page.
#[derive(Default)]
struct Measured {
    rows: String,
    checks: String,
    /// The slowest repetition over the fastest, in percent; the worst of all workloads.
    slowest: f64,
    /// The ratios of the two halves of the repetitions apart, in percent; likewise.
    apart: f64,
}

impl Measured {
    fn add(&mut self, workload: &Workload, outcomes: &Outcomes, times: &Times) {
        self.rows += &row(workload, times);
        self.checks += &format!("- {}: {}\n", workload.name, describe(outcomes));
        let spread = times.library.spread().max(times.ordinary.spread());
        self.slowest = self.slowest.max(spread);
        self.apart = self.apart.max(ratios_apart(times));
    }
}

/// Where and when, of what: the load stands there twice, from before and after.
fn origin(load_before: &str) -> String {
    let commit = tree::commit(&tree::root()).unwrap_or(machine::UNKNOWN.into());
    let archive = machine::sha256(Path::new(hislip::ARCHIVE)).unwrap_or(machine::UNKNOWN.into());
    format!(
        "Measured {}, commit {commit}, archive {archive}, on {}. Load of the last 1, 5 and 15 minutes: \
         {load_before} before, {} after.",
        date::now(),
        machine::cpu(),
        machine::load()
    )
}

/// Compares and measures every workload; says on the error stream how far it is.
pub fn page(plans: &[Plan], options: &Options) -> Result<String, String> {
    let load = machine::load();
    let mut measured = Measured::default();
    for (place, plan) in (1..).zip(plans) {
        eprintln!("bench: {place} of {}, {}", plans.len(), plan.name);
        let workload = plan.make(options.events);
        let outcomes = compare(&workload)?;
        measured.add(
            &workload,
            &outcomes,
            &measure(&workload, options.repetitions),
        );
    }
    Ok(text(&measured, options.repetitions, &origin(&load)))
}

fn text(measured: &Measured, repetitions: usize, origin: &str) -> String {
    let Measured {
        rows,
        checks,
        slowest,
        apart,
    } = measured;
    format!(
        "# Speed\n\n\
         The proved library beside an ordinary Rust server; nanoseconds per event, {repetitions} repetitions \
         of each, the two sides taking turns. Both are optimised, and both pay one call that is not inlined. \
         Each delivery is of a session drawn at random, in the mix and its kinds from all {SESSIONS}. A \
         minimum is taken slice by slice: of each {SLICE} events the fastest repetition counts.\n\n\
         {origin}\n\n\
         {HEAD}\n|---|---|---|---|---|---|---|---|\n{rows}\n\
         ![The ratios as a picture](speed.svg)\n\n\
         Noise: within a workload the slowest repetition took up to {slowest:.0} % longer than the fastest. \
         The ratio of minima from the first half of the repetitions alone and from the second half differ \
         by at most {apart:.0} %.\n\n\
         Buffers: the output buffer is neither cleared nor filled between events, except in the rows that \
         say so, where both sides have {OUTPUT} bytes cleared before each event, within the time taken.\n\n\
         Before the time is taken every answer, every byte of the buffer and, with a journal kept, of the \
         book is compared on the same events; all were equal. What the events came to:\n\n{checks}"
    )
}

fn row(workload: &Workload, times: &Times) -> String {
    let minima = (times.library.fastest(), times.ordinary.fastest());
    let medians = (times.library.median(), times.ordinary.median());
    format!(
        "| {} | {} | {:.1} | {:.1} | {:.1} | {:.1} | {:.2} | {:.2} |\n",
        workload.name,
        workload.steps.len(),
        minima.0,
        medians.0,
        minima.1,
        medians.1,
        minima.0 / minima.1,
        medians.0 / medians.1
    )
}

/// How far the ratios of the two halves are apart, in percent.
fn ratios_apart(times: &Times) -> f64 {
    let (library, ordinary) = (times.library.halves(), times.ordinary.halves());
    let ratio = |half: usize| library[half] / ordinary[half];
    100.0 * (ratio(0) / ratio(1) - 1.0).abs()
}

fn describe(outcomes: &Outcomes) -> String {
    let counted = outcomes
        .iter()
        .map(|(name, count)| format!("{count} {name}"));
    counted.collect::<Vec<_>>().join(", ")
}
