//! CRC-32, reflected IEEE, by tables that are made when this is compiled.

/// The polynomial, lowest power in the highest bit.
const POLYNOMIAL: u32 = 0xedb8_8320;

/// Row k: what a byte makes of the register when k bytes follow it.
static ROWS: [[u32; 256]; 8] = rows();

const fn rows() -> [[u32; 256]; 8] {
    let mut rows = [[0; 256]; 8];
    let mut place = 0;
    while place < 256 {
        let mut register = place as u32;
        let mut bit = 0;
        while bit < 8 {
            register = register >> 1 ^ POLYNOMIAL * (register & 1);
            bit += 1;
        }
        rows[0][place] = register;
        place += 1;
    }
    let mut row = 1;
    while row < 8 {
        let mut place = 0;
        while place < 256 {
            let before = rows[row - 1][place];
            rows[row][place] = before >> 8 ^ rows[0][(before & 0xff) as usize];
            place += 1;
        }
        row += 1;
    }
    rows
}

/// Eight bytes a step.
pub fn crc32(bytes: &[u8]) -> u32 {
    let mut eights = bytes.chunks_exact(8);
    let mut register = u32::MAX;
    for eight in &mut eights {
        let low = u32::from_le_bytes([eight[0], eight[1], eight[2], eight[3]]) ^ register;
        let at = |row: usize, byte: u32| ROWS[row][(byte & 0xff) as usize];
        register = at(7, low) ^ at(6, low >> 8) ^ at(5, low >> 16) ^ at(4, low >> 24);
        let [.., a, b, c, d] = *eight else {
            unreachable!("eight bytes")
        };
        register ^= at(3, a.into()) ^ at(2, b.into()) ^ at(1, c.into()) ^ at(0, d.into());
    }
    !by_bytes(register, eights.remainder())
}

/// A byte a step: what is mostly meant by a table-driven sum.
pub fn plain_crc32(bytes: &[u8]) -> u32 {
    !by_bytes(u32::MAX, bytes)
}

fn by_bytes(register: u32, bytes: &[u8]) -> u32 {
    bytes.iter().fold(register, |register, byte| {
        register >> 8 ^ ROWS[0][usize::from(register as u8 ^ byte)]
    })
}

#[cfg(test)]
mod tests {
    use super::{crc32, plain_crc32};

    #[test]
    fn sums_of_every_length() {
        assert_eq!(crc32(b"123456789"), 0xcbf4_3926);
        let bytes: Vec<u8> = (0..=255).collect();
        for end in 0..bytes.len() {
            let sum = reference::journal::crc::crc32(&bytes[..end]);
            assert_eq!([crc32(&bytes[..end]), plain_crc32(&bytes[..end])], [sum; 2]);
        }
    }
}
