//! Q-12: which texts are patterns, and the first bad place of the others.

mod random;
mod scpi;

use random::Random;
use reference::grammar::first_bad;
use scpi::is_pattern;

#[test]
fn patterns() {
    for good in [
        "A",
        "Ab",
        "MEASure[:VOLTage[:DC]]?",
        "MEASure",
        "MEASure?",
        "*IDN?",
        "*RST",
        "*A",
        "SYSTem:ERRor[:NEXT]?",
        "A:B:C",
        "A[:B]:C",
        "A[:B:C]",
        "A[:B][:C]?",
        "A[[:B]]",
        "A[[:B][:C]]",
        "A[:B[:C]:D]:E?",
        "A[[[[[[[[:B]]]]]]]]",
        "A[:B][:B][:B][:B][:B][:B][:B][:B][:B]",
    ] {
        assert_eq!(first_bad(good.as_bytes()), None, "{good}");
    }
}

/// With the first bad place.
const BAD: [(&str, usize); 46] = [
    ("measure", 0),
    ("?", 0),
    (":A", 0),
    ("[A]", 0),
    ("[:A]B", 0),
    ("1", 0),
    (" A", 0),
    ("A B", 1),
    ("A ", 1),
    ("A\n", 1),
    ("A\r", 1),
    ("A1", 1),
    ("A*", 1),
    ("A]", 1),
    ("AbC", 2),
    ("MEASureVolt", 7),
    ("A::B", 2),
    ("A:?", 2),
    ("A:b", 2),
    ("A:[:B]", 2),
    ("A:*B", 2),
    ("A[]", 2),
    ("A[B]", 2),
    ("A[?]", 2),
    ("A[b]", 2),
    ("A[:]", 3),
    ("A[:B?]", 4),
    ("A[:B?", 4),
    ("A[:B]C", 5),
    ("A[:B]b", 5),
    ("A[:B]]", 5),
    ("A??", 2),
    ("A?:B", 2),
    ("A?[:B]", 2),
    ("A? ", 2),
    ("**A", 1),
    ("*?", 1),
    ("*a", 1),
    ("*:A", 1),
    ("*1", 1),
    ("*WAIt", 4),
    ("*A:B", 2),
    ("*A[:B]", 2),
    ("*A*", 2),
    ("*A??", 3),
    ("\u{c4}", 0),
];

#[test]
fn the_first_byte_that_no_pattern_could_have_there() {
    for (bad, place) in BAD {
        assert_eq!(first_bad(bad.as_bytes()), Some(place), "{bad}");
    }
}

#[test]
fn its_length_if_it_stops_short() {
    for short in [
        "", "*", "A:", "Ab:", "A[", "A[[", "A[:", "A[:B", "A[:Bc", "A[:B[:C]", "A[[:B]",
    ] {
        assert_eq!(first_bad(short.as_bytes()), Some(short.len()), "{short}");
    }
}

#[test]
fn brackets_are_at_most_eight_deep() {
    let opened = |count: usize, inside: &str| format!("A{}", inside.repeat(count));
    for inside in ["[", "[:B"] {
        let nine = opened(9, inside);
        let ninth = 1 + 8 * inside.len();
        assert_eq!(first_bad(nine.as_bytes()), Some(ninth), "{nine}");
    }
    let eight = opened(8, "[:B");
    assert_eq!(
        first_bad(format!("{eight}{}", "]".repeat(8)).as_bytes()),
        None
    );
    let again = format!("{eight}][:C]{}?", "]".repeat(7));
    assert_eq!(
        first_bad(again.as_bytes()),
        None,
        "the eighth a second time"
    );
    let ninth = format!("{eight}][:C[");
    assert_eq!(first_bad(ninth.as_bytes()), Some(ninth.len() - 1));
}

#[test]
fn at_most_128_bytes_and_length_rules_out_no_earlier_byte() {
    let check = |text: &str, expected: Option<usize>| {
        assert_eq!(first_bad(text.as_bytes()), expected, "{text}");
    };
    let letters = |count: usize| "A".repeat(count);
    check(&letters(128), None);
    check(&format!("{}?", letters(127)), None);
    check(&letters(129), Some(128));
    check(&letters(5000), Some(128));
    check(&format!("{}!", letters(128)), Some(128));
    check(&format!("{}!!", letters(127)), Some(127));
    check(&format!("{}?A", letters(126)), Some(127));
    check(&format!("{}?A", letters(127)), Some(128));
    check(&format!("{}:", letters(127)), Some(128));
    check(&format!("{}:A", letters(127)), Some(128));
    check(&format!("{}{}", letters(120), "[".repeat(8)), Some(128));
    check(&format!("{}{}:", letters(120), "[".repeat(8)), Some(128));
    check(&format!("{}{}", letters(120), "[".repeat(9)), Some(128));
    check(&format!("{}{}", letters(119), "[".repeat(9)), Some(127));
    check(&format!("*{}", letters(127)), None);
    check(&format!("*{}", letters(128)), Some(128));
    check(&format!("{}\u{e4}", letters(128)), Some(128));
}

/// The first place whose bytes so far begin no pattern, found by trying to complete them.
fn tried(text: &[u8]) -> Option<usize> {
    let places = 0..text.len().min(128);
    let stuck = |place: &usize| !begins_a_pattern(&text[..=*place]);
    if let Some(place) = places.into_iter().find(stuck) {
        return Some(place);
    }
    match text.len() {
        129.. => Some(128),
        length => (!is_pattern(text)).then_some(length),
    }
}

/// A letter, or a colon and a letter, or nothing, and the ends of the open brackets complete what begins a pattern.
fn begins_a_pattern(text: &[u8]) -> bool {
    let count = |bracket| text.iter().filter(|byte| **byte == bracket).count();
    let open = count(b'[').saturating_sub(count(b']'));
    let mut starts = ["", "A", ":A"].iter();
    starts.any(|start| is_pattern(&[text, start.as_bytes(), &b"]".repeat(open)].concat()))
}

#[test]
fn every_short_text() {
    let letters = b"Aa:[]?*";
    let mut texts = vec![vec![]];
    let mut good = 0;
    for _ in 0..=5 {
        for text in &texts {
            assert_eq!(first_bad(text), tried(text), "{}", text.escape_ascii());
            good += usize::from(first_bad(text).is_none());
        }
        let longer = |text: &Vec<u8>| {
            let all = letters.iter().map(|letter| [text, &[*letter][..]].concat());
            all.collect::<Vec<_>>()
        };
        texts = texts.iter().flat_map(longer).collect();
    }
    assert!(good > 50, "{good}");
}

#[test]
fn every_byte_behind_every_kind_of_beginning() {
    for text in [
        "", "A", "Ab", "A:", "A[", "A[:B", "A[:Bc", "A[:B]", "A[:B[:C]", "A?", "*", "*A", "*A?",
    ] {
        for byte in 0..=255 {
            let longer = [text.as_bytes(), &[byte]].concat();
            let expected = tried(&longer);
            assert_eq!(first_bad(&longer), expected, "{}", longer.escape_ascii());
            let known = byte.is_ascii_alphabetic() || b":[]?*".contains(&byte);
            assert!(known || expected == Some(text.len()));
        }
    }
}

#[test]
fn grown_patterns_and_the_same_damaged_at_every_byte() {
    let mut random = Random(3);
    for _ in 0..12 {
        let text = scpi::grown(&mut random, 8);
        assert!(is_pattern(&text));
        for place in 0..text.len() {
            for byte in [b'A', b'a', b':', b'[', b']', b'?', b'*', b'7'] {
                let mut damaged = text.clone();
                damaged[place] = byte;
                let shown = damaged.escape_ascii();
                assert_eq!(first_bad(&damaged), tried(&damaged), "{shown}");
            }
            assert_eq!(first_bad(&text[..place]), tried(&text[..place]));
            let cut = [&text[..place], &text[place + 1..]].concat();
            assert_eq!(first_bad(&cut), tried(&cut), "{}", cut.escape_ascii());
        }
    }
}
