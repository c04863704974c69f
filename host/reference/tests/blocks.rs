//! which payloads are a definite length block of readings.

use reference::readings::block;

fn readings(payload: &[u8]) -> Option<Vec<f32>> {
    block(payload).map(Iterator::collect)
}

/// A head and so many bytes that are no digits.
fn payload(head: &str, floats: usize) -> Vec<u8> {
    let mut bytes = head.as_bytes().to_vec();
    bytes.extend((0..floats).map(|place| 0x80 | place as u8));
    bytes
}

#[test]
fn floats_are_big_endian() {
    let one = readings(b"#14\x3f\x80\x00\x00").expect("a block");
    assert_eq!(one, [1.0]);
    let two = readings(b"#208\xbf\xc0\x00\x00\x00\x00\x00\x01").expect("a block");
    assert_eq!(two, [-1.5, f32::from_bits(1)]);
}

#[test]
fn any_count_of_digits_and_leading_zeros() {
    for floats in [0, 4, 8, 996, 1000] {
        for digits in 1..=9_usize {
            let count = format!("{floats:0digits$}");
            let block = payload(&format!("#{digits}{count}"), floats);
            let found = readings(&block).map(|found| found.len());
            let expected = (count.len() == digits).then_some(floats / 4);
            assert_eq!(found, expected, "{digits} digits, {count}");
        }
    }
}

#[test]
fn a_multiple_of_four_and_at_most_1000() {
    for count in 0..=1016 {
        let block = payload(&format!("#4{count:04}"), count);
        let fits = count % 4 == 0 && count <= 1000;
        assert_eq!(readings(&block).is_some(), fits, "{count}");
    }
    assert_eq!(readings(&payload("#9999999999", 8)), None);
}

#[test]
fn the_block_fills_the_payload() {
    let whole = payload("#3012", 12);
    assert!(readings(&whole).is_some());
    for short in 0..whole.len() {
        assert_eq!(readings(&whole[..short]), None, "{short}");
    }
    for more in [&b"\n"[..], b"\0\0\0\0", b"#10", b"12345678"] {
        assert_eq!(readings(&[&whole, more].concat()), None);
        assert_eq!(readings(&[more, &whole].concat()), None);
    }
}

#[test]
fn every_other_byte_in_the_head_is_no_block() {
    for (head, floats) in [("#3012", 12), ("#14", 4), ("#9000000008", 8), ("#10", 0)] {
        let whole = payload(head, floats);
        for place in 0..head.len() {
            for byte in 0..=255 {
                let mut damaged = whole.clone();
                damaged[place] = byte;
                let same = damaged == whole;
                assert_eq!(readings(&damaged).is_some(), same, "{head} {place} {byte}");
            }
        }
    }
}

#[test]
fn indefinite_length_signs_and_spaces_are_none() {
    for head in [
        "#0", "#", "", "#2+4", "#2 4", "#24 ", "##14", "#:4", "#3-04", "#20x",
    ] {
        assert_eq!(readings(&payload(head, 4)), None, "{head}");
        assert_eq!(readings(head.as_bytes()), None, "{head}");
    }
}
