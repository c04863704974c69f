//! What a command ran: its suites, each with its events and its own time, and what lists reached.

use std::ops::RangeInclusive;
use std::time::Instant;

use record::text::grouped;

use crate::bout::Failed;
use crate::json;
use crate::reach::Reach;

pub struct Suite {
    pub name: String,
    pub events: usize,
    pub seconds: f64,
}

#[derive(Default)]
pub struct Tally {
    pub suites: Vec<Suite>,
    /// The seeds of random lists, if there were any, with what they reached.
    pub seeds: Option<(RangeInclusive<u64>, Reach)>,
    /// Progress goes to the error stream, because the other one is for JSON.
    pub aside: bool,
}

impl Tally {
    /// A line of progress.
    pub fn say(&self, line: &str) {
        if self.aside {
            eprintln!("{line}");
        } else {
            // The exit status says what matters.
            let _ = record::program::print(&format!("{line}\n"));
        }
    }

    /// Runs a suite by itself.
    pub fn suite(
        &mut self,
        name: &str,
        run: impl FnOnce() -> Result<usize, Failed>,
    ) -> Result<(), Failed> {
        let start = Instant::now();
        let events = run()?;
        self.add(name, events, start);
        Ok(())
    }

    /// A suite that began at `start` and has ended now.
    pub fn add(&mut self, name: &str, events: usize, start: Instant) {
        let seconds = start.elapsed().as_secs_f64();
        self.say(&format!(
            "{name}: {} events, {seconds:.1} s",
            grouped(events)
        ));
        self.suites.push(Suite {
            name: name.to_owned(),
            events,
            seconds,
        });
    }

    pub fn events(&self) -> usize {
        self.suites.iter().map(|suite| suite.events).sum()
    }

    pub fn seconds(&self) -> f64 {
        self.suites.iter().map(|suite| suite.seconds).sum()
    }

    /// All of it as one JSON object, with the difference if one was found.
    pub fn json(&self, command: &str, failed: Option<&Failed>) -> String {
        let suite = |suite: &Suite| {
            json::object(&[
                ("name", json::text(&suite.name)),
                ("events", suite.events.to_string()),
                ("seconds", format!("{:.3}", suite.seconds)),
            ])
        };
        let seeds = |(seeds, _): &(RangeInclusive<u64>, Reach)| {
            json::object(&[
                ("first", seeds.start().to_string()),
                ("last", seeds.end().to_string()),
            ])
        };
        let reached = |(_, reach): &(RangeInclusive<u64>, Reach)| reach.json();
        json::object(&[
            ("command", json::text(command)),
            ("events", self.events().to_string()),
            ("seconds", format!("{:.3}", self.seconds())),
            ("suites", json::array(self.suites.iter().map(suite))),
            ("seeds", json::optional(self.seeds.as_ref().map(seeds))),
            ("reached", json::optional(self.seeds.as_ref().map(reached))),
            ("difference", json::optional(failed.map(difference))),
        ])
    }
}

fn difference(failed: &Failed) -> String {
    json::object(&[
        ("repeat", json::text(&failed.again)),
        ("event", failed.difference.place.to_string()),
        ("what", json::text(&failed.difference.what)),
    ])
}

#[cfg(test)]
mod tests {
    use super::{Suite, Tally};
    use crate::bout::{Difference, Failed};
    use crate::reach::Reach;

    #[test]
    fn a_tally_as_json() {
        let suite = |name: &str, events| Suite {
            name: name.into(),
            events,
            seconds: 0.25,
        };
        let tally = Tally {
            suites: vec![suite("wrap", 7), suite("sizes", 5)],
            ..Tally::default()
        };
        let expected = concat!(
            r#"{"command": "quick", "events": 12, "seconds": 0.500, "#,
            r#""suites": [{"name": "wrap", "events": 7, "seconds": 0.250}, "#,
            r#"{"name": "sizes", "events": 5, "seconds": 0.250}], "#,
            r#""seeds": null, "reached": null, "difference": null}"#
        );
        assert_eq!(tally.json("quick", None), expected);
    }

    #[test]
    fn seeds_and_a_difference_as_json() {
        let tally = Tally {
            seeds: Some((3..=9, Reach::default())),
            ..Tally::default()
        };
        let found = Difference {
            place: 4,
            what: "a \"byte\"".into(),
        };
        let text = tally.json("soak", Some(&Failed::after(&[], &[], found, "seed 9")));
        assert!(text.contains(r#""seeds": {"first": 3, "last": 9}, "reached": {"refusals": ["#));
        let end = r#""difference": {"repeat": "seed 9", "event": 4, "what": "a \"byte\""}}"#;
        assert!(text.ends_with(end), "{text}");
    }
}
