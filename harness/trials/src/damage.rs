//! Damage to a sound store: plausible words and bytes in wrong places, and buffers of wrong lengths.

use keeper::Random;
use terms::{Capacities, BASE};

/// Alters pool or table in one place or two. The store was one of these capacities before any damage.
pub fn damage(random: &mut Random, pool: &mut [u8], table: &mut [u32], capacities: Capacities) {
    let (block, size) = (capacities.block_bytes as usize, capacities.record_words());
    let at = table.len() - size * capacities.records as usize;
    let (here, there) = (random.below(table.len()), random.below(table.len()));
    let (cell, other) = (block * random.below(pool.len() / block), block * random.below(pool.len() / block));
    match random.below(23) {
        0 => table[here] ^= 1 << random.below(32),
        1 => table[here] = random.edge(),
        2 => table[here] = table[there],
        3 => table.swap(here, there),
        4 => table[here] = table[here].wrapping_add(1),
        5 => table[here] = table[here].wrapping_sub(1),
        6 => table[here] = 0,
        7 => table[here] = (1 + random.below(3) as u32) << 24 | random.below(100) as u32,
        8 => pool[cell..cell + block].fill(0),
        9 => pool[cell + random.below(block)] ^= 1 << random.below(8),
        10 => pool.copy_within(cell..cell + block, other),
        11 => swap_records(random, &mut table[at..], size),
        12 => renumber(random, &mut table[..at]),
        13 => double(random, pool, &mut table[at..], capacities),
        14 => measure_anew(random, table),
        15 => misnumber(random, &mut table[..at]),
        16 => pool[cell..cell + block].fill(255),
        17 => mark_blank(random, &mut table[at..], size),
        18 => point_blank(random, &mut table[..at]),
        19 => shorten(random, &mut table[..at], block),
        20 => redate(random, &mut table[..at]),
        21 => entitle(random, &mut table[..at]),
        _ => swap_cells(random, pool, &mut table[at..], capacities),
    }
}

/// Other measures in the header: sound at most where the percentage alone is another one.
fn measure_anew(random: &mut Random, table: &mut [u32]) {
    let measures = match random.below(4) {
        0 => BASE,
        1 => [table[5], table[6], random.below(102) as u32],
        2 => [*random.pick(&[0, 64, 96, 128]), *random.pick(&[0, 4, 5, 8]), *random.pick(&[0, 20, 101])],
        _ => random.measures(),
    };
    table[5..8].copy_from_slice(&measures);
}

/// A record's mask of blank positions gets or loses one, or is any: sound where the others have none of it and the record
/// holds a position.
fn mark_blank(random: &mut Random, records: &mut [u32], size: usize) {
    let record = random.below(records.len() / size);
    let words = &mut records[size * record..][..3];
    let bit = 1 << random.below(size / 2);
    match random.below(5) {
        0 => words[2] = random.edge(),
        1 => words[2] = !(words[0] | words[1]) & (bit - 1),
        2 => words[2] |= words[random.below(2)],
        _ => words[2] ^= bit,
    }
}

/// Words at the kind of a blank pointer and near it.
const NEARLY_BLANK: [u32; 5] = [(3 << 24) + 1, (3 << 24) - 1, 4 << 24, (3 << 24) + (1 << 16), 1 << 31 | 3 << 24];

/// A block's pointer word becomes that of a blank one or one near it, or a blank one becomes null: sound where nothing
/// was counted, and the block is whole.
fn point_blank(random: &mut Random, words: &mut [u32]) {
    let blocks = words[2] as usize;
    let Some((words, places)) = numbers_of(random, words) else { return };
    if !places.is_empty() && blocks > 0 {
        let word = &mut words[random.pick(&places) + 3 + random.below(blocks)];
        *word = match random.below(6) {
            0 => *random.pick(&NEARLY_BLANK),
            1 | 2 if *word == 3 << 24 => 0,
            _ => 3 << 24,
        };
    }
}

/// A version loses some bytes of its last block, or gets them back: sound where the block is zero there.
fn shorten(random: &mut Random, words: &mut [u32], block: usize) {
    let Some((words, places)) = numbers_of(random, words) else { return };
    if !places.is_empty() {
        let length = &mut words[random.pick(&places) + 1];
        let any = random.below(block) as u32;
        let less = *random.pick(&[0, 1, block as u32 - 1, any]);
        // Other damage may have made it too large for that.
        *length = length.checked_next_multiple_of(block as u32).map_or(0, |whole| whole.saturating_sub(less));
    }
}

/// A slot gets any day: sound where it is in use.
fn redate(random: &mut Random, words: &mut [u32]) {
    let (versions, blocks) = (words[1] as usize, words[2] as usize);
    let Some((words, _)) = numbers_of(random, words) else { return };
    if versions > 0 {
        let day = &mut words[4 + random.below(versions) * (3 + blocks) + 2];
        let any = random.number() as u32;
        *day = *random.pick(&[1, any, u32::MAX, day.wrapping_add(1), day.wrapping_sub(1)]);
    }
}

/// A till's word of rights, or the word behind it, gets any bits: sound where the users 1 to 7 alone have some.
fn entitle(random: &mut Random, words: &mut [u32]) {
    let Some((words, _)) = numbers_of(random, words) else { return };
    let (any, bit) = (random.number() as u32, 1 << random.below(32));
    match random.below(8) {
        0 => words[3] = bit,
        1 => words[2] = any,
        2 => words[2] = *random.pick(&[1 << 28, (1 << 28) - 1, u32::MAX, any >> 4 | 1 << 28]),
        3 | 4 => words[2] ^= bit,
        _ => words[2] = any >> 4,
    }
}

/// Two records change places, their pointers stay: mostly unsound, but not if the two have the same counts.
fn swap_records(random: &mut Random, records: &mut [u32], size: usize) {
    let (one, other) = (random.below(records.len() / size), random.below(records.len() / size));
    (0..size).for_each(|n| records.swap(size * one + n, size * other + n));
}

/// Two cells change places, with the positions that name them: as sound as before.
fn swap_cells(random: &mut Random, pool: &mut [u8], records: &mut [u32], capacities: Capacities) {
    let (block, positions) = (capacities.block_bytes as usize, capacities.segment_blocks as usize);
    let cells = pool.len() / block;
    let (one, other) = (random.below(cells), random.below(cells));
    (0..block).for_each(|n| pool.swap(block * one + n, block * other + n));
    for record in records.chunks_mut(capacities.record_words()) {
        for i in (0..positions).filter(|i| record[0] >> i & 1 == 1).collect::<Vec<_>>() {
            match record[3 + i] as usize {
                cell if cell == one => record[3 + i] = other as u32,
                cell if cell == other => record[3 + i] = one as u32,
                _ => {}
            }
        }
    }
}

/// A till's words, and where in them the numbers of its held versions stand; none if the header no longer fits.
fn numbers_of<'a>(random: &mut Random, words: &'a mut [u32]) -> Option<(&'a mut [u32], Vec<usize>)> {
    let [tills, versions, blocks] = [0, 1, 2].map(|n| words[n] as usize);
    let (till, slot) = (4 + versions * (3 + blocks), 3 + blocks);
    if words.len() != 8 + tills * till {
        return None;
    }
    let words = &mut words[8 + random.below(tills) * till..][..till];
    let places = (0..(words[1] as usize).min(versions)).map(|n| 4 + n * slot).collect();
    Some((words, places))
}

/// A till's numbers all rise or fall by as much: sound while they stay in range.
fn renumber(random: &mut Random, words: &mut [u32]) {
    let by = *random.pick(&[1, 2, 3, 1_000, 65_530, u32::MAX, u32::MAX - 1, u32::MAX - 2]);
    if let Some((words, places)) = numbers_of(random, words) {
        words[0] = words[0].wrapping_add(by);
        places.into_iter().for_each(|at| words[at] = words[at].wrapping_add(by));
    }
}

/// One of a till's numbers, or the last given, is another: one twice, falling, 0, above the last, or only another gap.
fn misnumber(random: &mut Random, words: &mut [u32]) {
    let Some((words, places)) = numbers_of(random, words) else { return };
    if places.is_empty() {
        return;
    }
    let (at, other) = (*random.pick(&places), *random.pick(&places));
    match random.below(6) {
        0 => words[at] = 0,
        1 => words[at] = words[0].wrapping_add(random.below(2) as u32),
        2 => words[at] = words[other],
        3 => words.swap(at, other),
        4 => words[0] = words[at].wrapping_sub(random.below(2) as u32),
        _ => words[at] = words[other].wrapping_add(*random.pick(&[1, 2, u32::MAX, u32::MAX - 1])),
    }
}

/// Two positions name one cell, and the other's cell is cleared: nothing else is wrong.
fn double(random: &mut Random, pool: &mut [u8], records: &mut [u32], capacities: Capacities) {
    let (block, size) = (capacities.block_bytes as usize, capacities.record_words());
    let is_cell = |n: usize| (3..3 + capacities.segment_blocks as usize).contains(&(n % size));
    let is_held = |n: usize| records[n / size * size] >> (n % size - 3) & 1 == 1;
    let held: Vec<usize> = (0..records.len()).filter(|&n| is_cell(n) && is_held(n)).collect();
    if held.len() > 1 {
        let (one, other) = (*random.pick(&held), *random.pick(&held));
        let at = block * records[one] as usize;
        if one != other && at < pool.len() {
            pool[at..at + block].fill(0);
            records[one] = records[other];
        }
    }
}

/// A buffer too long or too short, by a little or by all.
pub fn lengths(random: &mut Random, pool: &mut Vec<u8>, table: &mut Vec<u32>, block: usize) {
    match random.below(8) {
        0 => pool.push(0),
        1 => pool.truncate(pool.len() - 1),
        2 => pool.truncate(pool.len() - block),
        3 => pool.clear(),
        4 => table.push(0),
        5 => table.truncate(table.len() - 1),
        6 => table.truncate(random.below(9)),
        _ => table.truncate(random.below(table.len())),
    }
}

/// A table of any words, or of plausible ones, after a good header or not.
pub fn garbage(random: &mut Random, table: &mut [u32]) {
    let from = if random.percent(80) { 8 } else { 0 };
    let plain = random.percent(50);
    for word in &mut table[from.min(8)..] {
        *word = match random.below(4) {
            _ if plain => random.number() as u32,
            0 => random.edge(),
            1 => random.below(8) as u32,
            2 => (1 + random.below(2) as u32) << 24 | random.below(64) as u32,
            3 if random.percent(30) => 3 << 24,
            _ => 0,
        };
    }
}
