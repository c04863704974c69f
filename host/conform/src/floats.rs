//! Readings, limits and blocks that lists are made of.

use reference::{Single, Watch};

use crate::numbers::Numbers;

/// Around every place where the order of the bits and that of the numbers part: both zeros, denormals, the
/// largest numbers, infinities, and what is not a number, quiet and signalling.
pub const BITS: [u32; 20] = [
    0x0000_0000,
    0x8000_0000,
    0x0000_0001,
    0x8000_0001,
    0x007f_ffff,
    0x0080_0000,
    0x3f80_0000,
    0x3f80_0001,
    0xbf80_0000,
    0xbf80_0001,
    0x4120_0000,
    0x7f7f_ffff,
    0xff7f_ffff,
    0x7f80_0000,
    0xff80_0000,
    0x7fc0_0000,
    0xffc0_0000,
    0x7f80_0001,
    0xff80_0001,
    0x7fff_ffff,
];

/// Bytes of readings with a count of so many digits before them, leading zeros where it is shorter.
pub fn with_digits(digits: usize, floats: &[u8]) -> Vec<u8> {
    let count = floats.len();
    let mut block = format!("#{digits}{count:0digits$}").into_bytes();
    block.extend_from_slice(floats);
    block
}

/// A block of these readings, with three digits.
pub fn block(bits: &[u32]) -> Vec<u8> {
    let floats: Vec<u8> = bits.iter().flat_map(|one| one.to_be_bytes()).collect();
    with_digits(3, &floats)
}

pub fn above(limit: u32) -> Watch {
    let limit = Single::of_bits(limit);
    Watch::Above { limit }
}

pub fn outside(low: u32, high: u32) -> Watch {
    let (low, high) = (Single::of_bits(low), Single::of_bits(high));
    Watch::Outside { low, high }
}

/// Few, so that readings meet limits and one another; sometimes any bits.
fn any_bits(numbers: &mut Numbers) -> u32 {
    match numbers.below(8) {
        0 => numbers.any() as u32,
        _ => numbers.pick(&BITS),
    }
}

pub fn any_watch(numbers: &mut Numbers) -> Watch {
    match numbers.below(8) {
        0 => Watch::Off,
        1..=4 => above(any_bits(numbers)),
        _ => {
            let (low, high) = (any_bits(numbers), any_bits(numbers));
            let backwards = f32::from_bits(low) > f32::from_bits(high);
            match backwards && numbers.permille(700) {
                true => outside(high, low),
                false => outside(low, high),
            }
        }
    }
}

/// Mostly a good block, with any digits; sometimes damaged in one place.
pub fn any_block(numbers: &mut Numbers) -> Vec<u8> {
    let readings = match numbers.below(20) {
        0 => 250,
        1 => 251,
        2 => numbers.below(252),
        _ => numbers.below(4),
    };
    let floats = (0..readings).flat_map(|_| any_bits(numbers).to_be_bytes());
    let floats: Vec<u8> = floats.collect();
    let needed = floats.len().to_string().len();
    let digits = needed + numbers.below(10 - needed);
    let mut block = with_digits(digits, &floats);
    if numbers.permille(200) {
        damage(&mut block, numbers);
    }
    block
}

fn damage(block: &mut Vec<u8>, numbers: &mut Numbers) {
    let head = 2 + usize::from(block[1] - b'0');
    let place = numbers.below(head);
    match numbers.below(4) {
        0 => block[place] = numbers.byte(),
        1 => block[place] = numbers.pick(b"#0123456789"),
        2 => block.truncate(block.len() - numbers.below(5).min(block.len())),
        _ => block.resize(block.len() + 1 + numbers.below(4), 0),
    }
}
