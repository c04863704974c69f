//! Conformance: two servers get the same events; every answer, every output byte, every byte that
//! must stay as it was, and demand 3 on the whole list are compared.

pub mod asking;
pub mod bench_examples;
pub mod bout;
pub mod cables;
pub mod command;
pub mod commands;
pub mod corners;
pub mod demand3;
pub mod floats;
pub mod hostile;
pub mod interrupts;
pub mod json;
pub mod kept;
pub mod library;
pub mod listing;
pub mod messages;
pub mod numbers;
pub mod orders;
pub mod quick;
pub mod reach;
pub mod readings;
pub mod report;
pub mod scpi;
pub mod selftest;
pub mod shrink;
pub mod sizes;
pub mod soak;
pub mod systematic;
pub mod tally;
pub mod traces;
pub mod watch;
pub mod world;
pub mod wrap;
