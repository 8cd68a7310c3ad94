//! Which parts a damaged file has, and which capacities its store.

use crate::form::{largest_pool, number, Parts};
use lurdempos::{table_length, Capacities, BLOCK_BYTES, SEGMENT_BLOCKS};

/// The best that can be found out, if anything.
pub fn found(bytes: &[u8]) -> Option<(Parts, Capacities)> {
    told(bytes).or_else(|| searched(bytes)).or_else(|| mended(bytes))
}

/// The parts as the head tells them, and the capacities in the table's header, if they fit each other.
fn told(bytes: &[u8]) -> Option<(Parts, Capacities)> {
    let parts = Parts::told(bytes).ok()?;
    let capacities = header(bytes, parts)?;
    fit(parts, capacities).then_some((parts, capacities))
}

/// The same where one word of the header is damaged: the lengths tell what it has to be. If several fit, the one
/// that takes the fewest flipped bits.
fn mended(bytes: &[u8]) -> Option<(Parts, Capacities)> {
    let parts = Parts::told(bytes).ok().filter(|parts| parts.length() == bytes.len())?;
    let read = header_words(bytes, parts)?;
    let others = (0..read.len()).flat_map(|n| {
        values(n).into_iter().filter_map(move |value| {
            let mut words = read;
            words[n] = value;
            Some((Capacities::of_table(&words)?, (read[n] ^ value).count_ones()))
        })
    });
    let fitting = others.filter(|(capacities, _)| fit(parts, *capacities));
    fitting.min_by_key(|(_, flipped)| *flipped).map(|(capacities, _)| (parts, capacities))
}

/// What a sound store's header can have as this word. The last three are 0 for the page's measures.
fn values(word: usize) -> Vec<u32> {
    match word {
        5 => [&[0], &BLOCK_BYTES[..]].concat(),
        6 => [&[0], &SEGMENT_BLOCKS[..]].concat(),
        7 => (0..=100).collect(),
        _ => (1..=Capacities::LARGEST.to_array()[word]).collect(),
    }
}

fn fit(parts: Parts, capacities: Capacities) -> bool {
    capacities.pool_bytes() == parts.pool && table_length(capacities) == Ok(parts.table)
}

/// The capacities as the table has them, if a store can have them.
pub fn header(bytes: &[u8], parts: Parts) -> Option<Capacities> {
    Capacities::of_table(&header_words(bytes, parts)?)
}

fn header_words(bytes: &[u8], parts: Parts) -> Option<[u32; 8]> {
    let mut words = [0; 8];
    for (n, word) in words.iter_mut().enumerate() {
        let from = parts.table_at() + 4 * n;
        *word = bytes.get(from..from + 4).and_then(number)?;
    }
    Some(words)
}

/// The head is damaged: the parts and capacities for which there is a header at the right place, and the right length.
fn searched(bytes: &[u8]) -> Option<(Parts, Capacities)> {
    let cell = BLOCK_BYTES[0] as usize;
    (cell..=largest_pool().min(bytes.len())).step_by(cell).find_map(|pool| {
        let capacities = header(bytes, Parts::new(pool, 0)).filter(|capacities| capacities.pool_bytes() == pool)?;
        let table = table_length(capacities).ok()?;
        let parts = Parts::forms(pool, table).into_iter().find(|parts| parts.length() == bytes.len())?;
        Some((parts, capacities))
    })
}
