//! The headers: every compiler of this machine takes them as C99 and as C++, warns where a host goes
//! wrong, and their numbers and names are those of the wrapper and of the archive.

use std::fs;
use std::mem::offset_of;
use std::sync::OnceLock;

use crate::compiler::{root, run, scratch, strict, C99, CPP11};
use hislip::sys::{hislip_listed, hislip_record, hislip_row};
use hislip::{type_name, Outcome, Refusal};

#[test]
fn the_headers_can_be_included_alone_and_twice() {
    for header in ["hislip_server.h", "hislip_names.h"] {
        let text = format!("#include \"{header}\"\n#include \"{header}\"\nint twice;\n");
        for language in [C99, CPP11] {
            for compiler in language.compilers() {
                let name = header.replace('.', "_");
                assert!(language.compiles(compiler, &name, &text), "{compiler}");
            }
        }
    }
}

/// Each compiler takes the first text and refuses the second, which warns.
fn warned_of(name: &str, good: &str, bad: &str) {
    for language in [C99, CPP11] {
        for compiler in language.compilers() {
            let wrong = format!("{name}-wrong");
            assert!(language.compiles(compiler, name, good), "{compiler}");
            assert!(!language.compiles(compiler, &wrong, bad), "{compiler}");
        }
    }
}

#[test]
fn a_null_pointer_is_warned_of() {
    let answer = |payload: &str| {
        format!(
            "#include \"hislip_server.h\"\n\
             hislip_answered answer(uint64_t *words, uint8_t *strings, uint8_t *out);\n\
             hislip_answered answer(uint64_t *words, uint8_t *strings, uint8_t *out)\n\
             {{ return hislip_answer(words, strings, 1, {payload}, 0, 1, (const uint8_t *)\"\", 0,\n\
                                     out, HISLIP_OUTPUT); }}\n"
        )
    };
    warned_of("null", &answer("(const uint8_t *)\"\""), &answer("NULL"));
}

#[test]
fn dropped_output_is_warned_of() {
    let clock = |keep: &str| {
        format!(
            "#include \"hislip_server.h\"\n\
             uint64_t clock(uint64_t *words, uint8_t *strings, uint8_t *out);\n\
             uint64_t clock(uint64_t *words, uint8_t *strings, uint8_t *out)\n\
             {{ hislip_done done = {{1, 1}};\n\
             {keep} hislip_clock(words, strings, 9, out, HISLIP_OUTPUT); return done.output; }}\n"
        )
    };
    warned_of("dropped", &clock("done ="), &clock(""));
}

/// Questions take memory that is only read.
#[test]
fn a_dropped_answer_to_a_question_is_warned_of() {
    let ask = |keep: &str| {
        format!(
            "#include \"hislip_server.h\"\n\
             uint64_t ask(const uint64_t *words, const uint8_t *strings);\n\
             uint64_t ask(const uint64_t *words, const uint8_t *strings)\n\
             {{ hislip_sized told = {{1, 1}};\n\
             hislip_deadlines due = hislip_deadline(words, strings);\n\
             {keep} hislip_client_size(words, strings, 1);\n\
             return due.waiting + due.deadline + told.refusal + told.size; }}\n"
        )
    };
    warned_of("question", &ask("told ="), &ask(""));
}

#[test]
fn a_dropped_count_of_rows_is_warned_of() {
    let ask = |keep: &str, rows: &str| {
        format!(
            "#include \"hislip_server.h\"\n\
             uint64_t ask(const uint64_t *words, const uint8_t *strings, hislip_row *rows);\n\
             uint64_t ask(const uint64_t *words, const uint8_t *strings, hislip_row *rows)\n\
             {{ hislip_counted told = {{1, 1}};\n\
             {keep} hislip_holders(words, strings, {rows}, HISLIP_SESSIONS);\n\
             return told.refusal + told.rows + rows->grants; }}\n"
        )
    };
    let good = ask("told =", "rows");
    warned_of("rows", &good, &ask("", "rows"));
    warned_of("null-rows", &good, &ask("told =", "NULL"));
}

/// A watch may be set without a look at the answer, but not over memory that is only read.
#[test]
fn a_dropped_record_and_a_watch_over_constant_memory_are_warned_of() {
    let ask = |keep: &str, memory: &str| {
        format!(
            "#include \"hislip_server.h\"\n\
             float ask({memory}uint64_t *words, uint8_t *strings);\n\
             float ask({memory}uint64_t *words, uint8_t *strings)\n\
             {{ hislip_record told = {{1, 1, 0, 0, 0}};\n\
             hislip_watch_off(words, strings, 1);\n\
             hislip_watch_above(words, strings, 1, 0.5f);\n\
             hislip_watch_outside(words, strings, 1, -0.5f, 0.5f);\n\
             {keep} hislip_readings(words, strings, 1);\n\
             return told.last + told.lowest + told.highest; }}\n"
        )
    };
    let good = ask("told =", "");
    warned_of("record", &good, &ask("", ""));
    warned_of("constant", &good, &ask("told =", "const "));
}

#[test]
fn a_dropped_answer_to_a_list_and_a_null_text_are_warned_of() {
    let set = |keep: &str, text: &str| {
        format!(
            "#include \"hislip_server.h\"\n\
             uint64_t set(uint64_t *words, uint8_t *strings);\n\
             uint64_t set(uint64_t *words, uint8_t *strings)\n\
             {{ hislip_listed told = {{1, 1, 1}};\n\
             {keep} hislip_patterns(words, strings, {text}, 0);\n\
             return told.refusal + told.pattern + told.place; }}\n"
        )
    };
    let good = set("told =", "(const uint8_t *)\"\"");
    warned_of("list", &good, &set("", "(const uint8_t *)\"\""));
    warned_of("null-list", &good, &set("told =", "NULL"));
}

/// What host/c/names.c prints of one kind, behind the kind's word.
fn lines<'a>(text: &'a str, kind: &str) -> Vec<&'a str> {
    let rest = |line: &'a str| line.strip_prefix(kind)?.strip_prefix(' ');
    text.lines().filter_map(rest).collect()
}

/// What host/c/names.c prints; compiled and run once for all tests.
fn names_in_c() -> &'static str {
    static TEXT: OnceLock<String> = OnceLock::new();
    TEXT.get_or_init(|| {
        let source = root().join("host/c/names.c");
        let archive = [env!("HISLIP_ARCHIVE")];
        run(strict(), &source, &archive, &scratch("names"))
    })
}

#[test]
fn a_cpp_program_links_the_archive() {
    let source = scratch("names").with_extension("cpp");
    fs::copy(root().join("host/c/names.c"), &source).expect("copied");
    for compiler in CPP11.compilers() {
        let program = scratch(&format!("names-{compiler}"));
        let archive = [env!("HISLIP_ARCHIVE")];
        let text = run(CPP11.strict(compiler), &source, &archive, &program);
        assert_eq!(text, names_in_c(), "{compiler}");
    }
}

#[test]
fn sizes_and_version_are_the_wrappers() {
    let text = names_in_c();
    let sizes = [
        hislip::WORDS as u64,
        hislip::STRING_BYTES as u64,
        hislip::SESSIONS as u64,
        hislip::CONNECTIONS as u64,
        hislip::HEADER as u64,
        hislip::PAYLOAD as u64,
        hislip::LOCK_STRING as u64,
        hislip::OUTPUT as u64,
        hislip::CLOCK_MAX,
        hislip::PATTERNS as u64,
        hislip::PATTERN as u64,
        hislip::NOT_ALLOWED.into(),
    ];
    assert_eq!(lines(text, "size"), sizes.map(|size| size.to_string()));
    let lent = format!("{} {}", hislip::WORDS, hislip::STRING_BYTES);
    assert_eq!(lines(text, "lent"), [lent], "macros and archive");
    let version = env!("CARGO_PKG_VERSION");
    assert_eq!(lines(text, "version"), [format!("{version} {version}")]);
}

#[test]
fn a_row_lies_as_in_the_wrapper() {
    let places = [
        offset_of!(hislip_row, session),
        offset_of!(hislip_row, exclusive),
        offset_of!(hislip_row, shared),
        offset_of!(hislip_row, granted_at),
        offset_of!(hislip_row, grants),
        size_of::<hislip_row>(),
    ];
    let text = names_in_c();
    assert_eq!(lines(text, "row"), places.map(|place| place.to_string()));
}

#[test]
fn a_record_lies_as_in_the_wrapper() {
    let places = [
        offset_of!(hislip_record, refusal),
        offset_of!(hislip_record, seen),
        offset_of!(hislip_record, last),
        offset_of!(hislip_record, lowest),
        offset_of!(hislip_record, highest),
        size_of::<hislip_record>(),
    ];
    let text = names_in_c();
    assert_eq!(lines(text, "record"), places.map(|place| place.to_string()));
}

#[test]
fn an_answer_to_a_list_lies_as_in_the_wrapper() {
    let places = [
        offset_of!(hislip_listed, refusal),
        offset_of!(hislip_listed, pattern),
        offset_of!(hislip_listed, place),
        size_of::<hislip_listed>(),
    ];
    let text = names_in_c();
    assert_eq!(lines(text, "listed"), places.map(|place| place.to_string()));
}

#[test]
fn names_are_the_wrappers() {
    let text = names_in_c();
    let constants: Vec<String> = (0..26).map(|type_: u8| type_.to_string()).collect();
    assert_eq!(lines(text, "constant"), constants);
    let types = (0..=u8::MAX).map(|number| format!("{number} {}", type_name(number)));
    assert_eq!(lines(text, "type"), types.collect::<Vec<_>>());
    let refusals = Refusal::ALL.map(|refusal| format!("{} {}", refusal.number(), refusal.reason()));
    assert_eq!(lines(text, "refusal")[1..13], refusals);
    assert_eq!(lines(text, "refusal")[13], "13 no refusal has that number");
    let outcomes = [
        Outcome::MoreNeeded,
        Outcome::Skipped,
        Outcome::Held,
        Outcome::Ignored,
        Outcome::ErrorSent,
        Outcome::Closed { session: None },
        Outcome::ActedOn { session: 1.into() },
    ];
    let outcomes = (0..)
        .zip(outcomes)
        .map(|(number, o)| format!("{number} {}", o.name()));
    assert_eq!(lines(text, "outcome")[..7], outcomes.collect::<Vec<_>>());
    assert_eq!(lines(text, "outcome")[7], "7 no outcome has that number");
}
