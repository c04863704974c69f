//! What this program runs itself: the library beside the reference, and the wrong servers.

use conform::command::PAIR;
use conform::selftest;
use conform::tally::{Suite, Tally};
use record::text::grouped;

use crate::section::{table, Section};

/// Suites, random lists with their seeds, and what they reached.
pub fn conform() -> Section {
    let mut tally = Tally {
        aside: true,
        ..Tally::default()
    };
    let ran = conform::quick::run(PAIR, &mut tally);
    let row = |suite: &Suite| {
        let seconds = format!("{:.1}", suite.seconds);
        [suite.name.clone(), grouped(suite.events), seconds]
    };
    let suites = table(["suite", "events", "seconds"], tally.suites.iter().map(row));
    let verdict = match &ran {
        Ok(()) => format!("{} events in all, no difference.", grouped(tally.events())),
        Err(failed) => format!(
            "A DIFFERENCE: {}; `conform {}`.",
            failed.difference.what, failed.again
        ),
    };
    let reached = tally.seeds.iter().flat_map(|(_, reach)| reach.lines());
    let reached: String = reached.map(|line| format!("- {line}\n")).collect();
    let body = format!("{suites}\n{verdict}\n\nThe random lists:\n\n{reached}");
    Section::when(
        "Library and reference on the same events",
        ran.is_ok(),
        body,
    )
}

/// Every wrong server must be found.
pub fn wrong_servers() -> Section {
    let tried = selftest::check(true);
    let verdict = if tried.good {
        "all found"
    } else {
        "NOT ALL FOUND"
    };
    let body = format!(
        "{} wrong servers, {} of them also found without comparing, in {:.1} s: {verdict}.\n",
        tried.servers, tried.alone, tried.seconds
    );
    Section::when("Can the comparison fail?", tried.good, body)
}
