//! The C programs of host/c: they compile without a warning, run, and say the same as the header.

use std::fs;

use crate::compiler::{root, run, scratch, strict};

/// Compiles a program of host/c against the archive without a warning, and runs it: what it prints.
fn printed(name: &str) -> String {
    let source = root().join("host/c").join(name).with_extension("c");
    let text = run(strict(), &source, &[env!("HISLIP_ARCHIVE")], &scratch(name));
    assert!(text.ends_with("all as expected\n"), "{text}");
    text
}

/// How many checks of a program held.
fn checks(text: &str) -> usize {
    text.lines().filter(|line| line.ends_with("ok")).count()
}

#[test]
fn the_c_example_runs() {
    let text = printed("example");
    assert!(
        text.contains("to connection 0: 16 bytes, type 1\n"),
        "{text}"
    );
    assert_eq!(checks(&text), 41, "{text}");
}

#[test]
fn every_bench_example_runs_in_c() {
    let text = printed("bench_examples");
    assert_eq!(checks(&text), 24, "{text}");
}

/// With the deepest and the widest patterns and commands.
#[test]
fn patterns_take_little_stack() {
    let text = printed("stack");
    assert_eq!(checks(&text), 16, "{text}");
}

#[test]
fn a_journal_is_kept_and_read_in_c() {
    let text = printed("journal");
    assert_eq!(checks(&text), 36, "{text}");
}

/// The lines of the header's example, without the comment's star and indent.
fn example_in_header() -> String {
    let header = fs::read_to_string(root().join("include/hislip_server.h")).expect("the header");
    let (_, rest) = header.split_once("EXAMPLE").expect("an example");
    let (text, _) = rest.split_once("*/").expect("the comment ends");
    let lines = text.lines().skip(2);
    let lines = lines.map(|line| line.strip_prefix(" *").unwrap_or(line));
    let lines = lines.map(|line| line.strip_prefix("   ").unwrap_or(line));
    lines.collect::<Vec<_>>().join("\n").trim().to_string()
}

#[test]
fn the_headers_example_is_the_programs() {
    let example = example_in_header();
    let program = fs::read_to_string(root().join("host/c/example.c")).expect("the program");
    assert!(example.lines().count() >= 20, "{example}");
    assert!(program.contains(&example), "{example}");
}
