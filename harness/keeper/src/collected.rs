//! Closings of several tills in one call: what is in one, and random ways in which its lists do not fit.

use crate::Random;
use terms::{Collected, MOST_IMAGES};

/// The images of a closing with their tills, if its lists fit each other and its bytes.
pub fn each(Collected { tills, lengths, images }: &Collected) -> Option<Vec<(u32, &[u8])>> {
    let sum: u128 = lengths.iter().map(|&length| u128::from(length)).sum();
    let fits = tills.len() == lengths.len() && tills.len() <= MOST_IMAGES && sum == images.len() as u128;
    let ends = lengths.iter().scan(0, |end, &length| {
        *end += length as usize;
        Some(*end)
    });
    let image = |((&till, &length), end): ((&u32, &u32), usize)| (till, &images[end - length as usize..end]);
    fits.then(|| tills.iter().zip(lengths).zip(ends).map(image).collect())
}

/// One thing that is wrong with the lists; now and then they only tell other images.
pub fn misfit(random: &mut Random, collected: &mut Collected) {
    if collected.tills.is_empty() || random.percent(10) {
        return too_many(random, collected);
    }
    let Collected { tills, lengths, images } = collected;
    let (one, other) = (random.below(lengths.len()), random.below(lengths.len()));
    let more = random.below(3) as u32;
    match random.below(13) {
        0 => tills.push(more),
        1 => drop(tills.pop()),
        2 => lengths.push(more),
        3 => drop(lengths.pop()),
        4 => images.push(7),
        5 => drop(images.pop()),
        6 => lengths[one] = lengths[one].wrapping_add(1),
        7 => lengths[one] = lengths[one].wrapping_sub(1),
        8 => lengths[one] = random.edge(),
        9 => shift(lengths, one, other),
        10 => wrap(lengths, one, other),
        11 => wrap_evenly(collected),
        _ => *[tills, lengths][random.below(2)] = Vec::new(),
    }
}

/// More images than a closing can have, of no bytes or of one.
fn too_many(random: &mut Random, collected: &mut Collected) {
    let count = MOST_IMAGES + random.between(1, 3);
    while collected.tills.len() < count {
        collected.add(0, &[7][..random.below(2)]);
    }
}

/// One part ends, or begins, an element elsewhere: the sum stays.
pub(crate) fn shift(lengths: &mut [u32], one: usize, other: usize) {
    if lengths[one] > 0 {
        lengths[one] -= 1;
        lengths[other] = lengths[other].wrapping_add(1);
    }
}

/// Two lengths of which the sum is larger by 2^32: right for whoever adds up in 32 bits.
pub(crate) fn wrap(lengths: &mut [u32], one: usize, other: usize) {
    if one != other {
        let sum = lengths[one].wrapping_add(lengths[other]);
        (lengths[one], lengths[other]) = (u32::MAX, sum.wrapping_add(1));
    }
}

/// All 16 lengths larger by 2^28, so that the sum is larger by 2^32.
fn wrap_evenly(collected: &mut Collected) {
    while collected.tills.len() < MOST_IMAGES {
        collected.add(0, &[]);
    }
    collected.lengths.iter_mut().for_each(|length| *length += 1 << 28);
}
