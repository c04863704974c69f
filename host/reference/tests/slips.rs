//! Slips seen in other boxes (01): none of them here.

mod common;

use common::*;
use reference::compose::header;
use reference::Outcome;

#[test]
fn locked_by_another_is_silence_not_error_3() {
    let (mut bench, [a, b]) = Bench::with();
    bench.lock(a, b"", 0);
    assert_eq!(bench.send(b.sync, DATA_END, 0, b"x"), held());
    assert_eq!(bench.send(b.sync, TRIGGER, 0, b""), held());
}

#[test]
fn a_second_string_does_not_replace_the_first() {
    let (mut bench, [a, b]) = Bench::with();
    bench.lock(a, b"one", 0);
    assert_eq!(bench.lock(a, b"two", 0), Some(3));
    assert_eq!(bench.lock(b, b"two", 0), Some(0));
    assert_eq!(bench.lock(b, b"one", 0), Some(1));
}

#[test]
fn one_release_drops_one_lock() {
    let (mut bench, [a]) = Bench::with();
    bench.lock(a, b"one", 0);
    bench.lock(a, b"", 0);
    assert_eq!(bench.release(a).0, 1);
    assert_eq!(bench.info(a), (0, 1));
}

#[test]
fn a_cut_drops_both_locks() {
    let (mut bench, [a, b]) = Bench::with();
    bench.lock(a, b"one", 0);
    bench.lock(a, b"", 0);
    bench.cut(a.sync);
    assert_eq!(bench.info(b), (0, 0));
    assert_eq!(bench.lock(b, b"two", 0), Some(1));
}

#[test]
fn a_length_near_2_64_does_not_wrap() {
    for length in [u64::MAX, u64::MAX - 15, u64::MAX - 16, 1 << 32] {
        let (mut bench, [a]) = Bench::with();
        let header = header(DATA_END, 0, 0, length);
        assert_eq!(bench.deliver(a.sync, &header), error(a.sync, 4, 16));
        let skipped = bench.deliver(a.sync, &[0; 100]);
        assert_eq!(skipped, seen(Outcome::Skipped, 0, 100, &[]));
    }
}
