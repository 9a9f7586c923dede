//! The CRC-32 of IEEE 802.3 by the method of crates/crc: eight bytes in a turn, each half byte looked up in a table of sixteen.

const POLYNOMIAL: u32 = 0xEDB8_8320;

/// For each half byte of a word, the lowest first: what 32 shifts make of it where it stands, and above that what 64 make.
static TABLES: [[u64; 16]; 8] = {
    let mut tables = [[0; 16]; 8];
    let mut place = 0;
    while place < 8 {
        let mut half = 0;
        while half < 16 {
            let low = shifted((half as u32) << (4 * place), 32);
            tables[place][half] = (shifted(low, 32) as u64) << 32 | low as u64;
            half += 1;
        }
        place += 1;
    }
    tables
};

const fn shifted(mut word: u32, times: usize) -> u32 {
    let mut n = 0;
    while n < times {
        word = if word & 1 == 1 { word >> 1 ^ POLYNOMIAL } else { word >> 1 };
        n += 1;
    }
    word
}

fn word(x: u32) -> u64 {
    (0..8).fold(0, |made, place| made ^ TABLES[place][(x >> (4 * place)) as usize % 16])
}

pub fn crc32(bytes: &[u8]) -> u32 {
    let mut crc = u32::MAX;
    let (eights, rest) = bytes.as_chunks::<8>();
    for &[a, b, c, d, e, f, g, h] in eights {
        // The last four wait for nothing, and come first: in the other order the compiler puts their sums behind those that wait, and a turn takes a third longer.
        let last = word(u32::from_le_bytes([e, f, g, h]));
        let first = word(crc ^ u32::from_le_bytes([a, b, c, d]));
        crc = (first >> 32) as u32 ^ last as u32;
    }
    for &b in rest {
        let left = (crc as u8 ^ b) as usize;
        crc = crc >> 8 ^ (TABLES[6][left % 16] ^ TABLES[7][left / 16]) as u32;
    }
    !crc
}
