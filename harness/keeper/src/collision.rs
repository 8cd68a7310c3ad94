//! Two beginnings of segments that differ and yet have one SHA-1, by Stevens, Bursztein, Karpman, Albertini and Markov
//! (2017): whatever follows both is hashed alike. With them a test sees which of several segments is taken.

/// Bytes of such a beginning: 192 that are the same, then two chunks that are not.
pub const LENGTH: usize = 320;

const COMMON: &[u8; 192] = b"%PDF-1.3\n%\xe2\xe3\xcf\xd3\n\n\n1 0 obj\n<</Width 2 0 R/Height 3 0 R/Type 4 0 R\
/Subtype 5 0 R/Filter 6 0 R/ColorSpace 7 0 R/Length 8 0 R/BitsPerComponent 8>>\nstream\n\xff\xd8\xff\xfe\
\x00$SHA-1 is dead!!!!!\x85/\xec\t#9u\x9c9\xb1\xa1\xc6<L\x97\xe1\xff\xfe\x01";

const CHUNKS: [[&str; 4]; 2] = [
    [
        "7f46dc93a6b67e013b029aaa1db2560b45ca67d688c7f84b8c4c791fe02b3df6",
        "14f86db1690901c56b45c1530afedfb76038e972722fe7ad728f0e4904e046c2",
        "30570fe9d41398abe12ef5bc942be33542a4802d98b5d70f2a332ec37fac3514",
        "e74ddc0f2cc1a874cd0c78305a21566461309789606bd0bf3f98cda8044629a1",
    ],
    [
        "7346dc9166b67e118f029ab621b2560ff9ca67cca8c7f85ba84c79030c2b3de2",
        "18f86db3a90901d5df45c14f26fedfb3dc38e96ac22fe7bd728f0e45bce046d2",
        "3c570feb141398bb552ef5a0a82be331fea48037b8b5d71f0e332edf93ac3500",
        "eb4ddc0decc1a864790c782c76215660dd309791d06bd0af3f98cda4bc4629b1",
    ],
];

/// Two different segments of so many bytes, at least 320, with one fingerprint.
pub fn segments(bytes: usize) -> [Vec<u8>; 2] {
    CHUNKS.map(|lines| {
        let mut segment = COMMON.to_vec();
        segment.extend(lines.into_iter().flat_map(bytes_of));
        segment.resize(bytes, b'z');
        segment
    })
}

fn bytes_of(digits: &str) -> Vec<u8> {
    let byte = |at: usize| u8::from_str_radix(&digits[at..at + 2], 16).expect("two digits");
    (0..digits.len()).step_by(2).map(byte).collect()
}
