//! which commands a pattern spells.

mod random;
mod scpi;

use random::Random;
use reference::grammar::first_bad;
use reference::spelling::Pattern;
use scpi::spellings;

fn spells(pattern: &str, command: &str) -> bool {
    assert_eq!(first_bad(pattern.as_bytes()), None, "{pattern}");
    Pattern::of(pattern.as_bytes()).spells(command.as_bytes())
}

fn check(pattern: &str, right: &[&str], wrong: &[&str]) {
    for command in right {
        assert!(spells(pattern, command), "{pattern} {command}");
        assert!(spells(pattern, &command.to_lowercase()));
        assert!(spells(pattern, &command.to_uppercase()));
    }
    for command in wrong {
        assert!(!spells(pattern, command), "{pattern} {command}");
    }
}

#[test]
fn the_papers_pattern() {
    let right = [
        "MEAS?",
        "MEASure?",
        "mEaSuRe?",
        "MEAS:VOLT?",
        "MEASURE:VOLT?",
        "MEAS:VOLTAGE?",
        "MEAS:VOLT:DC?",
        "MEASure:VOLTage:DC?",
    ];
    let wrong = [
        "",
        "?",
        "MEAS",
        "MEASURE:VOLTAGE:DC",
        "MEASU?",
        "MEA?",
        "MEASURES?",
        "MEAS:DC?",
        "MEAS:VOLTA?",
        "MEAS:VOLT:D?",
        "MEAS:VOLT:DC??",
        "MEAS?:VOLT",
        ":MEAS?",
        "MEAS[:VOLT]?",
        "MEAS :VOLT?",
        "MEAS;?",
        "MEAS:?",
        "MEAS::VOLT?",
        "MEAS:VOLT:VOLT?",
    ];
    check("MEASure[:VOLTage[:DC]]?", &right, &wrong);
}

#[test]
fn short_and_long_and_nothing_between() {
    check(
        "MEASure",
        &["MEAS", "MEASURE"],
        &["M", "MEASU", "MEASUR", "MEASUREE", "MEAS?"],
    );
    check("A", &["A"], &["AA", "", "B"]);
    check("DC?", &["DC?"], &["DC", "D?", "DCC?"]);
    check(
        "ABc:DEf",
        &["AB:DE", "ABC:DE", "AB:DEF", "ABC:DEF"],
        &["AB", "ABDE", "AB:D", "ABC:"],
    );
}

#[test]
fn star_patterns() {
    check(
        "*IDN?",
        &["*IDN?"],
        &["*IDN", "IDN?", "*I?", "*IDNA?", "**IDN?", "*IDN??"],
    );
    check("*RST", &["*RST"], &["*RST?", "RST", "*RS"]);
}

#[test]
fn brackets_in_every_place() {
    check("A[:B]:C", &["A:C", "A:B:C"], &["A:B", "A", "A:C:B"]);
    check(
        "A[:B][:C]",
        &["A", "A:B", "A:C", "A:B:C"],
        &["A:C:B", "A:B:B"],
    );
    check("A[[:B]]", &["A", "A:B"], &["A:B:B"]);
    check("A[:B:C]?", &["A?", "A:B:C?"], &["A:B?", "A:C?"]);
    check(
        "A[[:B][:C]]:D",
        &["A:D", "A:B:D", "A:C:D", "A:B:C:D"],
        &["A:C:B:D"],
    );
    check(
        "A[:B][:B]:B",
        &["A:B", "A:B:B", "A:B:B:B"],
        &["A", "A:B:B:B:B"],
    );
    check("A[[[[[[[[:B]]]]]]]]", &["A", "A:B"], &["A:B:B"]);
}

/// Bytes that are no letters have no case: in ASCII `[` is the sixth behind `{`, and so on.
#[test]
fn only_letters_have_a_case() {
    check(
        "A:B",
        &["a:b"],
        &["a\u{1a}b", "A\u{7a}B", "\u{c1}:B", "a:\u{42}\0"],
    );
    let pattern = Pattern::of(b"*A?");
    for byte in 0..=255 {
        assert_eq!(
            pattern.spells(&[b'*', byte, b'?']),
            matches!(byte, b'A' | b'a')
        );
        assert_eq!(pattern.spells(&[byte, b'A', b'?']), byte == b'*');
        assert_eq!(pattern.spells(&[b'*', b'A', byte]), byte == b'?');
    }
}

#[test]
fn just_the_spellings_of_grown_patterns() {
    let mut random = Random(12);
    let mut seen = 0;
    for _ in 0..400 {
        let text = scpi::grown(&mut random, 3);
        if text.len() > 24 {
            continue;
        }
        let all = spellings(&text);
        let pattern = Pattern::of(&text);
        for command in &all {
            let shown = (text.escape_ascii(), command.escape_ascii());
            assert!(pattern.spells(command), "{} {}", shown.0, shown.1);
            seen += 1;
            for damaged in around(command, &mut random) {
                let right = all.contains(&damaged.to_ascii_uppercase());
                assert_eq!(
                    pattern.spells(&damaged),
                    right,
                    "{}",
                    damaged.escape_ascii()
                );
            }
        }
    }
    assert!(seen > 1_000, "{seen}");
}

/// A command with a byte changed, left out, doubled or put in, at every place.
fn around(command: &[u8], random: &mut Random) -> Vec<Vec<u8>> {
    let letters = b"ABab:?*[] ";
    let mut all = vec![command.to_ascii_lowercase()];
    for place in 0..command.len() {
        let (before, behind) = (&command[..place], &command[place + 1..]);
        let other = letters[random.below(letters.len())];
        all.push([before, &[other][..], behind].concat());
        all.push([before, behind].concat());
        all.push([before, &[other, command[place]][..], behind].concat());
        all.push([before, &[command[place]; 2][..], behind].concat());
        all.push(before.to_vec());
    }
    all
}

/// Trying every choice would take longer than anybody waits.
#[test]
fn many_brackets_take_no_time() {
    let wide = format!("X{}?", "[:A]".repeat(31));
    let deep = format!("X{}{}", "[:A".repeat(8), "]]]]]]]]");
    let both = format!("X{}", "[[[[[[[[:A]]]]]]]]".repeat(7));
    for (pattern, most, end) in [(&wide, 31, "?"), (&deep, 8, ""), (&both, 7, "")] {
        for count in 0..=most + 3 {
            let command = format!("X{}{end}", ":A".repeat(count));
            assert_eq!(
                spells(pattern, &command),
                count <= most,
                "{pattern} {count}"
            );
            let other = format!("X{}:B{end}", ":A".repeat(count));
            assert!(!spells(pattern, &other));
        }
    }
}

#[test]
fn a_command_longer_than_any_pattern() {
    assert!(!spells("A[:B]", &"A".repeat(1024)));
    let long = "A".repeat(128);
    assert!(spells(&long, &long));
    assert!(!spells(&long, &format!("{long}A")));
}
