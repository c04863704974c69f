//! Random lists for a long time.

use std::time::{Duration, Instant};

use record::text::grouped;

use crate::bout::{Failed, Pair};
use crate::command::number;
use crate::hostile;
use crate::reach::Reach;
use crate::tally::Tally;

/// The first seed, if none is told: behind those of the quick setting.
const FROM: u64 = 1_000_000;
/// Between two lines of progress.
const PROGRESS: Duration = Duration::from_secs(5);

pub struct Soak {
    minutes: Option<u64>,
    events: Option<u64>,
    from: u64,
}

impl Soak {
    pub fn read(mut arguments: &[&str]) -> Result<Soak, String> {
        let (mut minutes, mut events, mut from) = (None, None, None);
        while let [name, rest @ ..] = arguments {
            let place = match *name {
                "--minutes" => &mut minutes,
                "--events" => &mut events,
                "--from" => &mut from,
                _ => return Err(format!("soak: no option `{name}`")),
            };
            let [value, rest @ ..] = rest else {
                return Err(format!("soak: `{name}` without a number"));
            };
            *place = Some(number(value)?);
            arguments = rest;
        }
        match (minutes, events) {
            (None, None) => Err("soak: how long? --minutes N or --events N".into()),
            (Some(0), _) | (_, Some(0)) => Err("soak: 0 is no soak".into()),
            _ => Ok(Soak {
                minutes,
                events,
                from: from.unwrap_or(FROM),
            }),
        }
    }

    fn over(&self, start: Instant, count: usize) -> bool {
        let time = self.minutes.map(|minutes| minutes.saturating_mul(60));
        let late = time.is_some_and(|time| start.elapsed() >= Duration::from_secs(time));
        late || self.events.is_some_and(|events| count as u64 >= events)
    }

    pub fn run(&self, pair: Pair, tally: &mut Tally) -> Result<(), Failed> {
        let start = Instant::now();
        let mut last = start;
        let mut reach = Reach::default();
        let (mut count, mut seed) = (0, self.from);
        while !self.over(start, count) {
            count += hostile::check(pair, seed, &mut reach)?;
            seed += 1;
            if last.elapsed() >= PROGRESS {
                last = Instant::now();
                tally.say(&progress(start, count, seed - 1));
            }
        }
        reach.lines().iter().for_each(|line| tally.say(line));
        let seeds = self.from..=seed - 1;
        let name = format!("seeds {} to {}", seeds.start(), seeds.end());
        tally.add(&name, count, start);
        tally.seeds = Some((seeds, reach));
        Ok(())
    }
}

fn progress(start: Instant, count: usize, seed: u64) -> String {
    let seconds = start.elapsed().as_secs_f64();
    let rate = count as f64 / seconds;
    format!(
        "soak: {} events to seed {seed}, {seconds:.0} s, {rate:.0} events/s",
        grouped(count)
    )
}
