//! CRC-32C (Castagnoli), as iSCSI and ext4 have it, by the processor's own instruction where it has one; a store's file
//! is summed twice in every backup.

/// The polynomial, its lowest power first.
const POLYNOMIAL: u32 = 0x82f6_3b78;
/// Each value of a byte at each of eight places has its part of the sum here, so that eight bytes are taken at a time.
const TABLES: [[u32; 256]; 8] = tables();

const fn tables() -> [[u32; 256]; 8] {
    let mut tables = [[0; 256]; 8];
    let mut byte = 0;
    while byte < 256 {
        let mut sum = byte as u32;
        let mut bit = 0;
        while bit < 8 {
            sum = if sum & 1 == 1 { sum >> 1 ^ POLYNOMIAL } else { sum >> 1 };
            bit += 1;
        }
        tables[0][byte] = sum;
        byte += 1;
    }
    let mut byte = 0;
    while byte < 256 {
        let mut place = 1;
        while place < 8 {
            let before = tables[place - 1][byte];
            tables[place][byte] = before >> 8 ^ tables[0][(before & 0xff) as usize];
            place += 1;
        }
        byte += 1;
    }
    tables
}

pub fn crc32c(bytes: &[u8]) -> u32 {
    #[cfg(target_arch = "x86_64")]
    if std::is_x86_feature_detected!("sse4.2") {
        // SAFETY: the processor has the instruction.
        return unsafe { by_instruction(bytes) };
    }
    by_tables(bytes)
}

#[cfg(target_arch = "x86_64")]
#[target_feature(enable = "sse4.2")]
fn by_instruction(bytes: &[u8]) -> u32 {
    use std::arch::x86_64::{_mm_crc32_u64, _mm_crc32_u8};
    let (eights, rest) = bytes.as_chunks::<8>();
    let sum = eights.iter().fold(!0, |sum, eight| _mm_crc32_u64(sum, u64::from_le_bytes(*eight)));
    !rest.iter().fold(sum as u32, |sum, &byte| _mm_crc32_u8(sum, byte))
}

fn by_tables(bytes: &[u8]) -> u32 {
    let (eights, rest) = bytes.as_chunks::<8>();
    let sum = eights.iter().fold(!0, |sum, eight| eight_more(sum, u64::from_le_bytes(*eight)));
    !rest.iter().fold(sum, |sum, &byte| sum >> 8 ^ TABLES[0][(sum as u8 ^ byte) as usize])
}

fn eight_more(sum: u32, eight: u64) -> u32 {
    let mixed = (eight ^ u64::from(sum)).to_le_bytes();
    mixed.iter().zip(TABLES.iter().rev()).fold(0, |sum, (&byte, table)| sum ^ table[byte as usize])
}

#[cfg(test)]
mod tests {
    use super::{by_tables, crc32c};

    /// The vectors of RFC 3720, B.4, and the usual check of nine digits.
    #[test]
    fn published_vectors() {
        let rising: Vec<u8> = (0..32).collect();
        let falling: Vec<u8> = (0..32).rev().collect();
        for sum in [crc32c, by_tables] {
            assert_eq!(sum(b"123456789"), 0xe306_9283);
            assert_eq!(sum(&[0; 32]), 0x8a91_36aa);
            assert_eq!(sum(&[255; 32]), 0x62a8_ab43);
            assert_eq!(sum(&rising), 0x46dd_794e);
            assert_eq!(sum(&falling), 0x113f_db5c);
            assert_eq!(sum(b""), 0);
        }
    }

    /// What docs/TOOL.md says of a piece of 512 bytes and its checksum: no change of an odd number of bits escapes, nor one
    /// of two or four, so none of up to five.
    #[test]
    fn up_to_five_flipped_bits_are_found() {
        let whole = crc32c(&[0; 512]);
        let in_piece = (0..8 * 512).map(|bit| {
            let mut piece = [0; 512];
            piece[bit / 8] = 1 << (bit % 8);
            crc32c(&piece) ^ whole
        });
        // What each flipped bit adds to the difference between the checksum that is there and the right one.
        let added: Vec<u32> = in_piece.chain((0..32).map(|bit| 1 << bit)).collect();
        // An odd number of these has an odd number of ones, and so is not zero.
        assert!(added.iter().all(|one| one.count_ones() % 2 == 1));
        let mut pairs = Vec::with_capacity(added.len() * added.len() / 2);
        for (n, one) in added.iter().enumerate() {
            pairs.extend(added[..n].iter().map(|other| one ^ other));
        }
        pairs.sort_unstable();
        assert!(pairs[0] != 0 && pairs.windows(2).all(|two| two[0] != two[1]));
    }

    #[test]
    fn both_ways_give_the_same() {
        let bytes: Vec<u8> = (0..600u32).map(|n| (n * n % 251) as u8).collect();
        for length in 0..bytes.len() {
            assert_eq!(crc32c(&bytes[..length]), by_tables(&bytes[..length]));
        }
    }
}
