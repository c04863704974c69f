//! IEEE 488.2 definite length blocks.

/// `#`, how many digits, the byte count, then the numbers as 32-bit floats, big endian.
pub fn of_floats(numbers: &[f64]) -> Vec<u8> {
    let count = (numbers.len() * size_of::<f32>()).to_string();
    let mut block = format!("#{}{count}", count.len()).into_bytes();
    for number in numbers {
        block.extend((*number as f32).to_be_bytes());
    }
    block
}
