//! The examples run to their end.

#[path = "../examples/allowed_commands.rs"]
mod allowed_commands;
#[path = "../examples/first_session.rs"]
mod first_session;
#[path = "../examples/shared_bench.rs"]
mod shared_bench;
#[path = "../examples/watched_readings.rs"]
mod watched_readings;

#[test]
fn one_program_asks() {
    first_session::main().expect("no refusal");
}

#[test]
fn two_programs_share() {
    shared_bench::main().expect("no refusal");
}

#[test]
fn one_programs_readings_are_watched() {
    watched_readings::main().expect("no refusal");
}

#[test]
fn one_programs_commands_are_allowed_or_not() {
    allowed_commands::main().expect("no refusal");
}
