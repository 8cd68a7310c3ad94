//! Stores that no list of calls leads to: any sound ones, damaged ones, and garbage.

use keeper::calls::{List, Style};
use keeper::inspect::inspect;
use keeper::sketch::sound_store;
use keeper::{Course, Random};
use std::collections::BTreeSet;
use terms::{Capacities, BASE};
use trials::compare::{compare, each_call};
use trials::damage::{damage, garbage, lengths};
use trials::{history, seed, stores, times};

/// Every single bit of pool and table flipped: the verdict is the twin's, and so are all answers.
#[test]
fn every_bit() {
    let mut random = Random::new(seed());
    let (mut unsound, mut sound) = (0, 0);
    let measures = [BASE, [64, 4, 100], [128, 16, 0]];
    for (round, measures) in (0..times() as u64).flat_map(|n| (3 * n..).zip(measures)) {
        let capacities = Capacities::new(2, 3, 9, 5, 18).measured(measures);
        let course = history::run(seed() + round, capacities, Style { retires: 10, kinds: 5 }, 60, 60);
        let (mut pool, mut table) = (course.buffers().0.to_vec(), course.buffers().1.to_vec());
        let calls = each_call(&mut random, &pool, &table);
        assert!(!compare(&pool, &table, &calls).contains(&10));
        let mut judge = |refusals: BTreeSet<u32>| if refusals.contains(&10) { unsound += 1 } else { sound += 1 };
        for bit in 0..8 * pool.len() {
            pool[bit / 8] ^= 1 << (bit % 8);
            judge(compare(&pool, &table, &calls));
            pool[bit / 8] ^= 1 << (bit % 8);
        }
        for bit in 0..32 * table.len() {
            table[bit / 32] ^= 1 << (bit % 32);
            judge(compare(&pool, &table, &calls));
            table[bit / 32] ^= 1 << (bit % 32);
        }
    }
    println!("{unsound} unsound, {sound} sound");
    assert!(unsound > 1_000 && sound > 100);
}

/// Sound stores of every shape and any measures: further calls on them go as the twin and the keeper have it.
#[test]
fn any_sound_stores() {
    let mut random = Random::new(seed());
    let mut met = BTreeSet::new();
    for _ in 0..3_000 * times() {
        let (pool, table) = sound_store(&mut random);
        assert!(twin::is_sound(&pool, &table));
        let capacities = Capacities::of_table(&table).expect("a sound store");
        compare(&pool, &table, &each_call(&mut random, &pool, &table));
        let list = List::new(&mut random, capacities, Style { retires: 30, kinds: 4 });
        let mut course = Course::from_store(&pool, &table, stores());
        for _ in 0..12 {
            let (user, call) = list.next(&mut random, &course);
            course.call_by(user, &call);
        }
        inspect(course.buffers().0, course.buffers().1, course.keeper());
        met.extend(course.met.into_iter().map(|(_, number)| number));
    }
    assert!([0, 11, 12, 14, 16].iter().all(|number| met.contains(number)), "{met:?}");
}

/// Damaged in one place to three, and tables of any words.
#[test]
fn damaged_and_garbage() {
    let mut random = Random::new(seed());
    let (mut unsound, mut sound) = (0, 0);
    for n in 0..20_000 * times() {
        let (mut pool, mut table) = sound_store(&mut random);
        let calls = each_call(&mut random, &pool, &table);
        let capacities = Capacities::of_table(&table).expect("a sound store");
        match n % 10 {
            0 => garbage(&mut random, &mut table),
            1 => lengths(&mut random, &mut pool, &mut table, capacities.block_bytes as usize),
            _ => (0..random.between(1, 3)).for_each(|_| damage(&mut random, &mut pool, &mut table, capacities)),
        }
        if compare(&pool, &table, &calls).contains(&10) {
            unsound += 1
        } else {
            sound += 1
        }
    }
    println!("{unsound} unsound, {sound} sound");
    assert!(unsound > 1_000 && sound > 1_000);
}
