//! Ranges of bytes in which two images differ.

use crate::json::Json;
use std::ops::Range;

/// The longest ranges of places at which both have a byte, and another one.
pub fn differing(one: &[u8], other: &[u8]) -> Vec<Range<usize>> {
    let mut ranges: Vec<Range<usize>> = Vec::new();
    for place in one.iter().zip(other).enumerate().filter(|(_, (one, other))| one != other).map(|(place, _)| place) {
        add(&mut ranges, place..place + 1);
    }
    ranges
}

/// Adds a range that lies behind all others; one that adjoins makes the last one longer.
pub fn add(ranges: &mut Vec<Range<usize>>, range: Range<usize>) {
    match ranges.last_mut() {
        Some(last) if last.end == range.start => last.end = range.end,
        _ => ranges.push(range),
    }
}

/// `byte 7` or `bytes 7 to 9`.
pub fn shown(range: &Range<usize>) -> String {
    match range.len() {
        1 => format!("byte {}", range.start),
        _ => format!("bytes {} to {}", range.start, range.end - 1),
    }
}

/// Several, with commas.
pub fn all_shown(ranges: &[Range<usize>]) -> String {
    ranges.iter().map(shown).collect::<Vec<String>>().join(", ")
}

/// First and last byte, for programs.
pub fn fields(ranges: &[Range<usize>]) -> Json {
    Json::list(ranges, |range| Json::object([("from", range.start.into()), ("to", (range.end - 1).into())]))
}
