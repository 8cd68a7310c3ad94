//! Several stores on one disk, put to the proved chain, the twin's and, store by store, the twin alone with the keeper:
//! the cases worked out by hand, those of a store alone for one that stands between others, lists of calls with limits
//! about what is occupied, and disks that are no chain.

use keeper::beside::{Beside, CASES};
use keeper::calls::List;
use keeper::chain::Seen;
use keeper::disks::{sound_chain, spoil};
use keeper::inspect::inspect;
use keeper::{chains as cases, keys, Course, Random};
use lurdempos::Proved;
use std::collections::{BTreeMap, BTreeSet};
use terms::{Calls, ChainCalls, Disk, Target, MOST_STORES, NO_LIMIT};
use trials::chained::{compare_on, run};
use trials::compare::each_call;
use trials::{chains, history, seed, times};
use twin::Twin;

fn both(case: impl Fn(&dyn ChainCalls)) {
    chains().iter().for_each(|chain| case(chain.as_ref()));
}

#[test]
fn every_call() {
    both(cases::every_call);
}

#[test]
fn counts() {
    both(cases::counts);
}

#[test]
fn lengths() {
    both(cases::lengths);
}

#[test]
fn one_unsound() {
    both(cases::one_unsound);
}

#[test]
fn outside() {
    both(cases::outside);
}

#[test]
fn at_the_limit() {
    both(cases::at_the_limit);
}

#[test]
fn room_by_removal() {
    both(cases::room_by_removal);
}

#[test]
fn retire_above() {
    both(cases::retire_above);
}

#[test]
fn after_all_others() {
    both(cases::after_all_others);
}

#[test]
fn closings() {
    both(cases::closings);
}

/// A store of the proved chain between so many others of any settings.
fn beside(random: &mut Random, before: usize, after: usize) -> Box<dyn Calls> {
    let (before, after) = (sound_chain(random, before), sound_chain(random, after));
    Box::new(Beside::new(Box::new(Proved), before, after))
}

/// What is worked out for a store alone goes for one in any place of a chain.
#[test]
fn cases_beside_others() {
    let mut random = Random::new(seed());
    for (before, after) in [(0, 0), (1, 0), (0, 1), (7, 0), (0, 7), (3, 4)] {
        let store = beside(&mut random, before, after);
        CASES.iter().for_each(|case| case(store.as_ref()));
    }
}

/// And so do the keys for staff.
#[test]
fn keys_beside_others() {
    fn stores() -> Vec<Box<dyn Calls>> {
        vec![beside(&mut Random::new(seed()), 1, 2), Box::new(Twin)]
    }
    [keys::every_right, keys::in_order, keys::of_the_owner, keys::in_a_closing].iter().for_each(|case| case(stores));
    [keys::four_bits, keys::rights_stay, keys::soundness].iter().for_each(|case| case(stores));
}

/// Random lists on a store that stands between others, with the keeper: answers, bytes and words are those of the proved
/// store alone.
#[test]
fn lists_beside_others() {
    let mut random = Random::new(seed());
    for _ in 0..60 * times() {
        let (capacities, style) = history::small(&mut random);
        let before = random.below(MOST_STORES);
        let after = random.below(MOST_STORES - before);
        let stores = vec![Box::new(Proved) as Box<dyn Calls>, beside(&mut random, before, after)];
        let mut course = Course::new(capacities, stores);
        let list = List::new(&mut random, capacities, style);
        for _ in 0..120 {
            let (user, call) = list.next(&mut random, &course);
            course.call_by(user, &call);
        }
        inspect(course.buffers().0, course.buffers().1, course.keeper());
    }
}

/// Lists on chains of any settings, from freshly laid out stores, each with its keeper. Together they meet every refusal
/// of a sound chain, and limits in every way.
#[test]
fn lists_with_limits() {
    let mut random = Random::new(seed());
    let (mut seen, mut met) = (Seen::default(), BTreeSet::new());
    for round in 0..160 * times() {
        let stores = 1 + round % MOST_STORES;
        let chain = run(&mut random, stores, 60 * stores);
        seen += chain.seen;
        met.extend(chain.met);
    }
    println!("{seen:?}");
    assert!(seen.each().iter().all(|&often| often > 50), "{seen:?}");
    assert_eq!(met, every_refusal());
}

/// What each call on a sound chain can answer, and each image of a closing.
fn every_refusal() -> BTreeSet<(char, u32)> {
    let wanted = [
        ('b', &[0, 3, 4, 11, 14, 16, 21, 22, 23][..]),
        ('d', &[0, 3, 4, 11, 14, 16, 21, 22, 23, 28]),
        ('m', &[0, 3, 4, 11, 14, 16, 19, 20, 21, 22, 23]),
        ('a', &[0, 4]),
        ('c', &[0, 3, 4, 11, 14, 16, 21, 22, 23]),
        ('r', &[0, 3, 5, 17, 18, 22, 23]),
        ('q', &[0, 3, 17, 18, 22, 23]),
        ('i', &[0, 3, 22, 23]),
        ('v', &[0, 3, 22, 23, 29]),
        ('t', &[0, 22, 23]),
        ('p', &[0, 22, 23, 30]),
        ('s', &[0, 3, 5, 17, 18, 22, 23]),
        ('f', &[0, 3, 4, 22, 23]),
        ('k', &[0, 3, 22, 23]),
    ];
    wanted.into_iter().flat_map(|(call, numbers)| numbers.iter().map(move |&number| (call, number))).collect()
}

/// Mostly this store of a disk, else any other or one that it has not.
fn store_near(random: &mut Random, disk: &Disk, store: u32) -> u32 {
    let stores = disk.pool_lengths.len();
    match random.below(10) {
        0 => *random.pick(&[stores as u32 + 1, 8, 9, u32::MAX]),
        1 | 2 => random.below(stores + 1) as u32,
        _ => store,
    }
}

/// Chains of any sound stores and disks that are none, with calls that one of the stores would accept, under no limit and
/// under any.
#[test]
fn any_disks() {
    let mut random = Random::new(seed());
    let mut met: BTreeMap<u32, usize> = BTreeMap::new();
    for round in 0..3_000 * times() {
        let stores = 1 + random.below(MOST_STORES);
        let mut disk = sound_chain(&mut random, stores);
        let own = random.below(stores) as u32;
        let (pool, table) = disk.part(own).expect("one of the stores");
        let calls = each_call(&mut random, pool, table);
        (0..round % 3).for_each(|_| spoil(&mut random, &mut disk));
        let store = store_near(&mut random, &disk, own);
        for limit in [NO_LIMIT, random.below(60) as u32] {
            let said = compare_on(&disk, Target { store, limit }, &calls);
            said.into_iter().for_each(|number| *met.entry(number).or_default() += 1);
        }
    }
    println!("{met:?}");
    assert!([0, 1, 3, 10, 14, 16, 21].iter().all(|number| met.get(number).is_some_and(|&often| often > 10)), "{met:?}");
}
