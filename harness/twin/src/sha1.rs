//! SHA-1 as RFC 3174 has it.

use terms::{fingerprint, Fingerprint};

const START: [u32; 5] = [0x6745_2301, 0xefcd_ab89, 0x98ba_dcfe, 0x1032_5476, 0xc3d2_e1f0];

/// Bytes of a chunk, and of the length at the end of the last one.
const CHUNK: usize = 64;
const LENGTH: usize = 8;

/// A message's SHA-1, as bytes.
pub fn fingerprint_of(message: &[u8]) -> Fingerprint {
    fingerprint(sha1(message))
}

/// The five words of a message's SHA-1.
pub fn sha1(message: &[u8]) -> [u32; 5] {
    let (chunks, rest) = message.as_chunks();
    let words = chunks.iter().fold(START, take_in);
    padded(rest, message.len()).as_chunks().0.iter().fold(words, take_in)
}

/// What is left of a message behind its whole chunks, with a 1 bit, zeros and the length in bits: one chunk or two.
fn padded(rest: &[u8], length: usize) -> Vec<u8> {
    let chunks = if rest.len() < CHUNK - LENGTH { 1 } else { 2 };
    let mut last = rest.to_vec();
    last.push(0x80);
    last.resize(chunks * CHUNK - LENGTH, 0);
    last.extend((8 * length as u64).to_be_bytes());
    last
}

fn take_in(before: [u32; 5], chunk: &[u8; CHUNK]) -> [u32; 5] {
    let mut words = [0; 80];
    for (word, bytes) in words.iter_mut().zip(chunk.as_chunks().0) {
        *word = u32::from_be_bytes(*bytes);
    }
    for t in 16..80 {
        words[t] = (words[t - 3] ^ words[t - 8] ^ words[t - 14] ^ words[t - 16]).rotate_left(1);
    }
    let after = rounds(before, &words[..20], 0x5a82_7999, |b, c, d| b & c | !b & d);
    let after = rounds(after, &words[20..40], 0x6ed9_eba1, |b, c, d| b ^ c ^ d);
    let after = rounds(after, &words[40..60], 0x8f1b_bcdc, |b, c, d| b & c | b & d | c & d);
    let after = rounds(after, &words[60..], 0xca62_c1d6, |b, c, d| b ^ c ^ d);
    std::array::from_fn(|i| before[i].wrapping_add(after[i]))
}

/// Twenty rounds with one function and one constant.
fn rounds(state: [u32; 5], words: &[u32], constant: u32, f: impl Fn(u32, u32, u32) -> u32) -> [u32; 5] {
    words.iter().fold(state, |[a, b, c, d, e], &word| {
        let sum = a.rotate_left(5).wrapping_add(f(b, c, d)).wrapping_add(e);
        [sum.wrapping_add(word).wrapping_add(constant), a, b.rotate_left(30), c, d]
    })
}
