//! CRC-32, reflected IEEE: bit by bit in a table that is made once.

/// The polynomial, lowest power in the highest bit.
const POLYNOMIAL: u32 = 0xedb8_8320;

static TABLE: [u32; 256] = table();

const fn table() -> [u32; 256] {
    let mut table = [0; 256];
    let mut place = 0;
    while place < table.len() {
        let mut register = place as u32;
        let mut bit = 0;
        while bit < 8 {
            let out = register & 1;
            register >>= 1;
            if out == 1 {
                register ^= POLYNOMIAL;
            }
            bit += 1;
        }
        table[place] = register;
        place += 1;
    }
    table
}

pub fn crc32(bytes: &[u8]) -> u32 {
    let step = |register: u32, byte: &u8| {
        let low = (register as u8) ^ byte;
        register >> 8 ^ TABLE[usize::from(low)]
    };
    !bytes.iter().fold(u32::MAX, step)
}
