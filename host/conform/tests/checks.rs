//! The conformance run itself: it reaches what it should, and shortens what it finds.

use std::time::Duration;

use conform::bout::{Bout, Failed, Pair, BENCH};
use conform::command::{HELD_TO_IT, LIBRARY, REFERENCE};
use conform::messages::clock;
use conform::reach::Reach;
use conform::watch::{Side, Watch};
use conform::{bench_examples, hostile, report, shrink};
use reference::event::Frame;
use reference::Event;

const TWICE: Pair = Pair {
    left: REFERENCE,
    right: REFERENCE,
};

fn wrong(name: &str) -> Pair {
    let fault = faults::ALL.iter().find(|fault| fault.name == name);
    let fault = fault.expect("in faults.txt");
    Pair {
        left: REFERENCE,
        right: Side {
            name: fault.name,
            new: fault.new,
            see_locks: false,
            forgets: true,
        },
    }
}

#[test]
fn random_lists_reach_every_answer() {
    let mut reach = Reach::default();
    for seed in 1..=300 {
        hostile::check(TWICE, seed, &mut reach).expect("one server agrees with itself");
    }
    for refusal in [1, 2, 3, 4, 5, 6, 7, 8, 10, 11] {
        assert!(reach.refusals[refusal] > 20, "refusal {refusal}: {reach:?}");
    }
    assert!(reach.outcomes.iter().all(|count| *count > 200), "{reach:?}");
    assert!(
        reach.fatal_errors[1..].iter().all(|count| *count > 5),
        "{reach:?}"
    );
    assert!(reach.errors.iter().all(|count| *count > 50), "{reach:?}");
    assert!(
        reach.lock_answers.iter().all(|count| *count > 200),
        "{reach:?}"
    );
    for kind in [1, 2, 3, 5, 6, 7, 9, 11, 13, 14, 16, 18, 20, 22, 23, 25] {
        assert!(reach.frames[kind] > 20, "type {kind}: {reach:?}");
    }
    assert!(reach.most_lock_answers >= 5, "{reach:?}");
    assert!(
        reach.interrupted.iter().all(|count| *count > 50),
        "{reach:?}"
    );
    assert!(reach.standing.iter().all(|count| *count > 50), "{reach:?}");
    assert!(reach.watching.iter().all(|count| *count > 50), "{reach:?}");
    assert!(reach.refusals[12] > 5, "{reach:?}");
    assert!(reach.commands.iter().all(|count| *count > 100), "{reach:?}");
    assert!(reach.holding > 5000, "{reach:?}");
    assert!(reach.most_holders >= 5, "{reach:?}");
    assert!(reach.sought > 30, "{reach:?}");
}

/// `make conform` does the same on more lists.
#[test]
fn the_ordinary_server_answers_as_the_reference() {
    for seed in 1..=100 {
        hostile::check(HELD_TO_IT, seed, &mut Reach::default()).expect("every answer and byte");
    }
}

#[test]
fn a_seed_gives_the_same_list_each_time() {
    assert_eq!(hostile::list(&REFERENCE, 77), hostile::list(&REFERENCE, 77));
    assert_ne!(hostile::list(&REFERENCE, 77), hostile::list(&REFERENCE, 78));
}

/// Shrinks a few lists of a wrong server that fail, and takes the shortest: what can be left out of one is
/// bounded by the session numbers that its messages name.
fn shrunk(name: &str) -> Vec<Event> {
    let pair = wrong(name);
    let failed =
        (1..300).filter_map(|seed| hostile::check(pair, seed, &mut Reach::default()).err());
    let shortened = failed.take(8).map(|failed| {
        let fails = |list: &[Event]| Bout::new(pair, failed.fresh).run(list).err();
        let (list, difference) = shrink::shrink(&failed.list, Duration::from_secs(60), fails);
        assert!(difference.place < list.len());
        assert!(fails(&list).is_some(), "the short list still fails");
        list
    });
    shortened.min_by_key(Vec::len).expect("found")
}

#[test]
fn a_late_deadline_shrinks_to_two_sessions_and_a_clock() {
    let list = shrunk("deadline_one_late");
    // Two sessions (eight events), two locks, one reading; perhaps a reading before.
    assert!((10..=14).contains(&list.len()), "{list:?}");
    assert!(matches!(list.last(), Some(Event::Clock { .. })));
}

#[test]
fn a_wrong_refusal_shrinks_to_almost_nothing() {
    assert!(shrunk("clock_equal_refused").len() <= 2);
    assert!(shrunk("refusal_writes_the_buffer").len() <= 2);
}

#[test]
fn the_library_agrees_on_its_first_lists() {
    let pair = Pair {
        left: REFERENCE,
        right: LIBRARY,
    };
    bench_examples::check(pair).expect("no difference");
    for seed in 1..=20 {
        hostile::check(pair, seed, &mut Reach::default()).expect("no difference");
    }
}

#[test]
fn a_question_that_changes_the_server_is_seen() {
    let mut watch = Watch::new(&LIBRARY, BENCH);
    watch.unchanged().expect("nothing happened");
    watch.subject.status(7);
    watch.unchanged().expect_err("another status byte");
}

/// Two equal readings after some status changes, which a wrong server answers wrongly.
fn told_after(changes: usize) -> String {
    let pair = wrong("clock_equal_refused");
    let prepares = vec![Event::Status { status: 7 }; changes];
    let list = [clock(5), Event::Open { connection: 3 }, clock(5)];
    let mut bout = Bout::new(pair, BENCH);
    bout.run(&prepares).expect("no difference yet");
    let found = bout.run(&list).expect_err("a wrong refusal");
    report::shortest(pair, &Failed::after(&prepares, &list, found, "here"))
}

#[test]
fn a_difference_is_told_with_a_short_list() {
    let expected = "vendor 4141, prefers synchronized\n  \
        0: clock 5 -> done, 0 bytes of output\n  \
        1: clock 5 -> done, 0 bytes of output\n\
        difference at 1: reference: done, 0 bytes of output; clock_equal_refused: refusal 3\n";
    assert_eq!(told_after(0), expected);
}

#[test]
fn of_a_long_preparation_the_middle_is_left_out() {
    let text = told_after(1000);
    let lines: Vec<&str> = text.lines().collect();
    assert_eq!(lines.len(), 15, "{text}");
    assert_eq!(lines[6], "  .. 990 events more ..");
    assert_eq!(lines[12], "  1000: clock 5 -> done, 0 bytes of output");
}

#[test]
fn frames_are_read_whole_or_not_at_all() {
    let output = [&[7][..], b"HS\x05\x01\0\0\0\x09\0\0\0\0\0\0\0\x01!"].concat();
    let frame = Frame {
        connection: 7,
        kind: 5,
        code: 1,
        parameter: 9,
        payload: b"!",
    };
    assert_eq!(reference::event::frames(&output), Some(vec![frame]));
    assert_eq!(reference::event::frames(&output[..17]), None);
    assert_eq!(reference::event::frames(&output[1..]), None);
}
