//! Every suite, thinned where it is long, and random lists.

use std::time::Instant;

use crate::bout::{Failed, Pair};
use crate::reach::Reach;
use crate::tally::Tally;
use crate::{
    bench_examples, cables, commands, corners, hostile, interrupts, orders, readings, sizes,
    systematic, wrap,
};

/// Events of random lists.
const EVENTS: usize = 1_000_000;
/// Of the systematic cases with an effect, one in so many is looked at more closely.
const THIN: u64 = 16;
/// Of the orders one in so many is run.
const ORDERS_THIN: u64 = 100;

pub fn run(pair: Pair, tally: &mut Tally) -> Result<(), Failed> {
    tally.suite("bench examples", || bench_examples::check(pair))?;
    tally.suite("corners", || corners::check(pair))?;
    tally.suite("systematic", || systematic::check(pair, THIN))?;
    tally.suite("standing releases in many orders", || {
        orders::check(pair, ORDERS_THIN)
    })?;
    tally.suite("answers beside unread bytes", || interrupts::check(pair))?;
    tally.suite("readings under watch", || readings::check(pair))?;
    tally.suite("allowed commands", || commands::check(pair))?;
    tally.suite("cables dropped after every byte", || cables::check(pair))?;
    tally.suite("answers and strings of every size", || sizes::check(pair))?;
    tally.suite("SessionID wrap", || wrap::check(pair))?;
    let start = Instant::now();
    let mut reach = Reach::default();
    let (mut events, mut seed) = (0, 0);
    while events < EVENTS {
        seed += 1;
        events += hostile::check(pair, seed, &mut reach)?;
    }
    reach.lines().iter().for_each(|line| tally.say(line));
    tally.add(
        &format!("seeds 1 to {seed}, demand 3 on each"),
        events,
        start,
    );
    tally.seeds = Some((1..=seed, reach));
    Ok(())
}
