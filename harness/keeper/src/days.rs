//! Random days near those that a till has: before, between, at and after them, and the ends of what a day can be.

use crate::whole::Till;
use crate::Random;

/// A day for a till's next backup: most are that of its newest held version or a later one, some an earlier one. The
/// last day that there is comes seldom, since none is later.
pub fn next_day(random: &mut Random, till: &Till) -> u32 {
    let newest = till.newest_day();
    match random.below(60) {
        0 => u32::MAX,
        1 => newest.saturating_add(1 << 31),
        2..=5 => any_day(random, till),
        6..=10 => newest.saturating_sub(1),
        11 => 0,
        12..=24 => newest,
        25..=44 => newest.saturating_add(1),
        _ => newest.saturating_add(random.below(40) as u32),
    }
}

/// A day to look a version up by.
pub fn any_day(random: &mut Random, till: &Till) -> u32 {
    let days: Vec<u32> = till.days().collect();
    let held = if days.is_empty() { 0 } else { *random.pick(&days) };
    match random.below(12) {
        0 => *random.pick(&[0, 1, u32::MAX - 1, u32::MAX]),
        1 => random.edge(),
        2 => random.number() as u32,
        3 => till.newest_day(),
        4 => days.first().map_or(0, |day| day.saturating_sub(1)),
        5 | 6 => held.saturating_sub(1),
        7 | 8 => held.saturating_add(1),
        _ => held,
    }
}
