//! Disks that are no chain, or not quite: lists that do not fit, stores that are not sound, too many or too few.

use crate::collected::{shift, wrap};
use crate::sketch::sound_store;
use crate::Random;
use terms::{Disk, Refusal, MOST_STORES};

/// A chain of so many sound stores, each of its own capacities.
pub fn sound_chain(random: &mut Random, stores: usize) -> Disk {
    let parts: Vec<(Vec<u8>, Vec<u32>)> = (0..stores).map(|_| sound_store(random)).collect();
    Disk::of(parts.iter().map(|(pool, table)| (&pool[..], &table[..])))
}

/// What every call that names this store is refused with before its own refusals, if it is, where `is_sound` tells what
/// a sound store is.
pub fn refusal_of(disk: &Disk, store: u32, is_sound: fn(&[u8], &[u32]) -> bool) -> Option<Refusal> {
    let Disk { pools, tables, pool_lengths, table_lengths } = disk;
    let adds_up =
        |lengths: &[u32], whole: usize| lengths.iter().map(|&length| u128::from(length)).sum::<u128>() == whole as u128;
    let fit = adds_up(pool_lengths, pools.len()) && adds_up(table_lengths, tables.len());
    let stores = pool_lengths.len();
    if stores == 0 || stores > MOST_STORES || table_lengths.len() != stores {
        Some(Refusal::Capacity)
    } else if !fit || disk.parts().any(|(pool, table)| !is_sound(pool, table)) {
        Some(Refusal::Unsound)
    } else {
        (store as usize >= stores).then_some(Refusal::NoSuchTill)
    }
}

/// One thing that is wrong with a chain; now and then it is still one.
pub fn spoil(random: &mut Random, disk: &mut Disk) {
    match random.below(7) {
        0 if random.percent(20) => *disk = Disk::default(),
        0 => add_up_to(random, disk, MOST_STORES + 1),
        1 => add_nothing(random, disk),
        2 => change_end(random, disk),
        3 | 4 => misfit(random, disk),
        _ => flip(random, disk),
    }
}

fn add_up_to(random: &mut Random, disk: &mut Disk, stores: usize) {
    while disk.pool_lengths.len() < stores {
        let (pool, table) = sound_store(random);
        disk.add(&pool, &table);
    }
}

/// A store without a byte or a word, which is not sound, where both lists have that place.
fn add_nothing(random: &mut Random, disk: &mut Disk) {
    let place = random.below(disk.pool_lengths.len().min(disk.table_lengths.len()) + 1);
    disk.pool_lengths.insert(place, 0);
    disk.table_lengths.insert(place, 0);
}

/// A buffer that is longer or shorter than the lists tell.
fn change_end(random: &mut Random, disk: &mut Disk) {
    match random.below(4) {
        0 => disk.pools.push(0),
        1 => drop(disk.pools.pop()),
        2 => disk.tables.push(0),
        _ => drop(disk.tables.pop()),
    }
}

/// One of the lists is another: longer, shorter, one off, of the same sum, or of the same sum in 32 bits.
fn misfit(random: &mut Random, disk: &mut Disk) {
    let Disk { pool_lengths, table_lengths, .. } = disk;
    let lengths = if random.percent(50) { pool_lengths } else { table_lengths };
    if lengths.is_empty() {
        return lengths.push(random.edge());
    }
    let (one, other) = (random.below(lengths.len()), random.below(lengths.len()));
    match random.below(8) {
        0 => drop(lengths.pop()),
        1 => lengths.push(random.edge()),
        2 => lengths[one] = lengths[one].wrapping_add(1),
        3 => lengths[one] = lengths[one].wrapping_sub(1),
        4 => lengths[one] = random.edge(),
        5 => shift(lengths, one, other),
        6 => wrap(lengths, one, other),
        _ => lengths.swap(one, other),
    }
}

/// One bit of one store, which may stay sound.
fn flip(random: &mut Random, disk: &mut Disk) {
    let store = random.below(disk.pool_lengths.len().max(1)) as u32;
    let (bit, of_pool) = (random.number() as usize, random.percent(50));
    match disk.part_mut(store) {
        Some((pool @ [_, ..], _)) if of_pool => pool[bit / 8 % pool.len()] ^= 1 << (bit % 8),
        Some((_, table @ [_, ..])) => table[bit / 32 % table.len()] ^= 1 << (bit % 32),
        _ => {}
    }
}
