//! The form of a store's file: a head of 32 bytes, the pool, the table, and a checksum for each piece of these.
//! docs/FORMAT.md describes it.

use crate::checksum::crc32c;
use crate::ranges;
use crate::words::counted;
use lurdempos::{Capacities, BLOCK_BYTES, SEGMENT_BLOCKS};
use std::fmt;
use std::ops::Range;

/// The first bytes of every store's file. A transfer that rewrites line ends spoils them, so that it is noticed.
const MAGIC: &[u8; 12] = b"lurdempos\r\n\x1a";
/// The version of this form, and the one before it, which has no checksums.
const FORM: u32 = 2;
const WITHOUT_SUMS: u32 = 1;
/// Bytes before the pool: magic, version of the form, bytes of the pool, words of the table.
const HEAD: usize = 32;
/// Bytes that have a checksum together. It holds whole cells.
const PIECE: usize = 512;

/// Why bytes are not a store's file.
#[derive(Debug, PartialEq, Eq)]
pub enum Misfit {
    TooShort { bytes: u64 },
    TooLong { bytes: u64 },
    Magic,
    Form { found: u32 },
    Parts { pool: u64, table: u64 },
    Length { bytes: u64, needed: u64 },
    Sums { damaged: Vec<Range<usize>> },
}

impl fmt::Display for Misfit {
    fn fmt(&self, f: &mut fmt::Formatter<'_>) -> fmt::Result {
        match self {
            Misfit::TooShort { bytes } => {
                let has = counted(*bytes, "byte");
                write!(f, "too short for a store: it has {has}, the head alone has {HEAD}")
            }
            Misfit::TooLong { bytes } => {
                write!(f, "too long for a store: it has {bytes} bytes, the largest store has {}", largest())
            }
            Misfit::Magic => write!(f, "not a store's file: it does not begin with the magic of one"),
            Misfit::Form { found } => write!(
                f,
                "a store's file of form {found}; this tool reads forms {WITHOUT_SUMS} and {FORM}, \
                 another version may read it"
            ),
            Misfit::Parts { pool, table } => {
                let (pool, table) = (counted(*pool, "byte"), counted(*table, "word"));
                write!(f, "its lengths do not fit: no store has a pool of {pool} and a table of {table}")
            }
            Misfit::Length { bytes, needed } => write!(
                f,
                "its lengths do not fit: by its head it has {needed} bytes, but it has {bytes}; \
                 it was cut or lengthened, or is still being copied"
            ),
            Misfit::Sums { damaged } => {
                write!(f, "damaged: {}; nothing was altered", damage_in_words(damaged))
            }
        }
    }
}

/// Where the checksums do not hold.
pub fn damage_in_words(damaged: &[Range<usize>]) -> String {
    match damaged {
        [] => "every checksum holds".into(),
        [one] => format!("the checksum of {} does not hold", ranges::shown(one)),
        [first, ..] => format!("{} checksums do not hold, the first of {}", damaged.len(), ranges::shown(first)),
    }
}

/// The lengths of a file's parts.
#[derive(Clone, Copy, Debug, PartialEq, Eq)]
pub struct Parts {
    pub form: u32,
    /// Bytes of the pool.
    pub pool: usize,
    /// Words of the table.
    pub table: usize,
}

impl Parts {
    /// Where the head lies.
    pub const HEAD: Range<usize> = 0..HEAD;

    pub fn new(pool: usize, table: usize) -> Parts {
        Parts { form: FORM, pool, table }
    }

    /// In each form that there has been.
    pub fn forms(pool: usize, table: usize) -> [Parts; 2] {
        [FORM, WITHOUT_SUMS].map(|form| Parts { form, pool, table })
    }

    /// As a head tells.
    pub fn told(bytes: &[u8]) -> Result<Parts, Misfit> {
        let Some(head) = bytes.first_chunk::<HEAD>() else {
            return Err(Misfit::TooShort { bytes: bytes.len() as u64 });
        };
        if !is_store(head) {
            return Err(Misfit::Magic);
        }
        let form = word(head, 12);
        if !(WITHOUT_SUMS..=FORM).contains(&form) {
            return Err(Misfit::Form { found: form });
        }
        let [pool, table] = [16, 24].map(|at| u64::from(word(head, at)) | u64::from(word(head, at + 4)) << 32);
        // Measured against the largest stores first: only then can no sum overflow.
        if !largest_parts().any(|most| pool <= most.pool as u64 && table <= most.table as u64) {
            return Err(Misfit::Parts { pool, table });
        }
        Ok(Parts { form, pool: pool as usize, table: table as usize })
    }

    pub fn has_sums(self) -> bool {
        self.form != WITHOUT_SUMS
    }

    /// Where the table begins.
    pub fn table_at(self) -> usize {
        HEAD + self.pool
    }

    /// Where cell `cell` of this many bytes lies.
    pub fn cell(self, cell: usize, bytes: usize) -> Range<usize> {
        let from = HEAD + cell * bytes;
        from..from + bytes
    }

    /// Head, pool and table together, to which the checksums follow.
    fn body(self) -> usize {
        self.table_at() + 4 * self.table
    }

    /// Bytes of the whole file.
    pub fn length(self) -> usize {
        self.body() + if self.has_sums() { 4 * self.pieces().count() } else { 0 }
    }

    /// The pieces that have a checksum each: the head, then the pool and then the table in 512s.
    pub fn pieces(self) -> impl Iterator<Item = Range<usize>> {
        let part = |from: usize, to: usize| (from..to).step_by(PIECE).map(move |start| start..to.min(start + PIECE));
        std::iter::once(Parts::HEAD).chain(part(HEAD, self.table_at())).chain(part(self.table_at(), self.body()))
    }

    /// The pieces whose checksum does not hold, or is not there.
    pub fn damaged(self, bytes: &[u8]) -> Vec<Range<usize>> {
        let sums = bytes.get(self.body()..).unwrap_or_default().chunks_exact(4).map(number);
        let mut sums = sums.chain(std::iter::repeat(None));
        let holds = |piece: &Range<usize>, sum: Option<u32>| {
            bytes.get(piece.clone()).is_some_and(|bytes| sum == Some(crc32c(bytes)))
        };
        self.pieces().filter(|piece| !holds(piece, sums.next().flatten())).collect()
    }
}

/// Whether bytes begin as a store's file does.
pub fn is_store(bytes: &[u8]) -> bool {
    bytes.starts_with(MAGIC)
}

/// The parts of the largest store of each block size and segment: larger blocks make the pool larger, but the table
/// smaller.
fn largest_parts() -> impl Iterator<Item = Parts> {
    let measures = BLOCK_BYTES.into_iter().flat_map(|bytes| SEGMENT_BLOCKS.map(|blocks| [bytes, blocks, 0]));
    let largest = measures.map(Capacities::largest);
    largest.map(|capacities| Parts::new(capacities.pool_bytes(), capacities.table_words()))
}

/// Bytes of the largest pool.
pub fn largest_pool() -> usize {
    largest_parts().map(|parts| parts.pool).max().unwrap_or(0)
}

/// Bytes of the largest store's file.
pub fn largest() -> u64 {
    largest_parts().map(|parts| parts.length() as u64).max().unwrap_or(0)
}

/// The file of a pool and a table, made in the pool's own memory: new memory costs more time than all else here.
pub fn encode(pool: Vec<u8>, table: &[u32]) -> Vec<u8> {
    let parts = Parts::new(pool.len(), table.len());
    let lengths = [pool.len(), table.len()].map(|length| (length as u64).to_le_bytes()).concat();
    let head = [&MAGIC[..], &FORM.to_le_bytes(), &lengths].concat();
    let mut bytes = pool;
    bytes.reserve_exact(parts.length() - bytes.len());
    bytes.splice(..0, head);
    add_words(&mut bytes, table);
    let sums: Vec<u32> = parts.pieces().map(|piece| crc32c(&bytes[piece])).collect();
    add_words(&mut bytes, &sums);
    bytes
}

/// Adds all words at once; one by one would take longer than writing the file.
fn add_words(bytes: &mut Vec<u8>, words: &[u32]) {
    let from = bytes.len();
    bytes.resize(from + 4 * words.len(), 0);
    let (fours, _) = bytes[from..].as_chunks_mut::<4>();
    fours.iter_mut().zip(words).for_each(|(four, word)| *four = word.to_le_bytes());
}

/// What a file has.
pub struct Content {
    pub parts: Parts,
    pub pool: Vec<u8>,
    pub table: Vec<u32>,
}

/// The pool and the table of a file. Whether they are a sound store is for the store itself to say.
pub fn decode(mut bytes: Vec<u8>) -> Result<Content, Misfit> {
    let parts = Parts::told(&bytes)?;
    let (length, needed) = (bytes.len() as u64, parts.length() as u64);
    if length != needed {
        return Err(Misfit::Length { bytes: length, needed });
    }
    let damaged = if parts.has_sums() { parts.damaged(&bytes) } else { Vec::new() };
    if !damaged.is_empty() {
        return Err(Misfit::Sums { damaged });
    }
    let table = words(&bytes[parts.table_at()..parts.body()]);
    bytes.truncate(parts.table_at());
    bytes.drain(Parts::HEAD);
    Ok(Content { parts, pool: bytes, table })
}

/// The four bytes from `at` on as a number.
fn word(head: &[u8; HEAD], at: usize) -> u32 {
    u32::from_le_bytes(std::array::from_fn(|n| head[at + n]))
}

fn words(bytes: &[u8]) -> Vec<u32> {
    bytes.as_chunks::<4>().0.iter().map(|four| u32::from_le_bytes(*four)).collect()
}

/// Four bytes as a number.
pub fn number(four: &[u8]) -> Option<u32> {
    four.try_into().ok().map(u32::from_le_bytes)
}

#[cfg(test)]
mod tests {
    use super::{decode, encode, largest, largest_pool, Parts};

    /// As docs/FORMAT.md has them.
    #[test]
    fn the_largest_file() {
        assert_eq!((largest_pool(), largest()), (16_777_216, 18_027_304));
    }

    /// Every single bit that flips, wherever it is, is noticed.
    #[test]
    fn no_flipped_bit_escapes() {
        let pool: Vec<u8> = (0..1_100).map(|n| (n * n % 251) as u8).collect();
        let table: Vec<u32> = (0..200).map(|n| n * 77_777).collect();
        let bytes = encode(pool.clone(), &table);
        assert!(decode(bytes.clone()).is_ok_and(|content| (content.pool, content.table) == (pool, table)));
        for bit in 0..8 * bytes.len() {
            let mut damaged = bytes.clone();
            damaged[bit / 8] ^= 1 << (bit % 8);
            assert!(decode(damaged).is_err(), "bit {bit}");
        }
    }

    #[test]
    fn pieces_cover_all_once() {
        let parts = Parts::new(1_600, 150);
        let covered: Vec<usize> = parts.pieces().flatten().collect();
        assert_eq!(covered, (0..32 + 1_600 + 600).collect::<Vec<usize>>());
        assert_eq!(parts.length(), 32 + 1_600 + 600 + 4 * (1 + 4 + 2));
    }
}
