//! Retiring any version, put to the proved store, the twin and the keeper.

use keeper::calls::{List, Style};
use keeper::closings::{Shop, LENGTH};
use keeper::inspect::inspect;
use keeper::trial::Trial;
use keeper::{Call, Course, Random};
use std::collections::BTreeSet;
use terms::Capacities;
use trials::compare::{compare, each_call};
use trials::{history, seed, stores, times};

fn look(course: &Course) {
    let (pool, table) = course.buffers();
    inspect(pool, table, course.keeper());
}

fn numbers(course: &Course, till: u32) -> Vec<u32> {
    course.keeper().tills()[till as usize].held.keys().copied().collect()
}

/// The order in which a full till is emptied.
#[derive(Clone, Copy, Debug)]
enum Order {
    NewestFirst,
    OldestFirst,
    Any,
}

fn next(random: &mut Random, held: &[u32], order: Order) -> u32 {
    match order {
        Order::NewestFirst => held[held.len() - 1],
        Order::OldestFirst => held[0],
        Order::Any => *random.pick(held),
    }
}

/// Every held version of a till comes back, the others are refused as given once or never, and the listing has the
/// ends.
fn all_come_back(course: &mut Course, till: u32, room: usize) {
    let held = numbers(course, till);
    let last = course.keeper().tills()[till as usize].last;
    for version in 0..=last + 1 {
        let refusal = course.call(&Call::Restore { till, version, room })[0];
        let expected = match version {
            _ if held.contains(&version) => 0,
            _ if version == 0 || version == last + 1 => 17,
            _ => 18,
        };
        assert_eq!(refusal, expected);
    }
    course.call(&Call::Listing { till });
}

/// Tills are filled by a random list that retires nothing, and then emptied one version after the other; after each
/// all that is left comes back, and a till that was emptied goes on with its numbers.
#[test]
fn emptied_in_every_order() {
    let mut random = Random::new(seed());
    let mut emptied = [0; 3];
    for round in 0..150 * times() {
        let (capacities, style) = history::small(&mut random);
        let list = List::new(&mut random, capacities, Style { retires: 0, ..style });
        let mut course = Course::new(capacities, stores());
        for _ in 0..60 {
            let (user, call) = list.next(&mut random, &course);
            course.call_by(user, &call);
        }
        let order = [Order::NewestFirst, Order::OldestFirst, Order::Any][round % 3];
        for till in 0..capacities.tills {
            while let [_, ..] = numbers(&course, till)[..] {
                let version = next(&mut random, &numbers(&course, till), order);
                assert_eq!(course.call(&Call::Retire { till, version })[0], 0, "{order:?}");
                assert_eq!(course.call(&Call::Retire { till, version })[0], 18, "{order:?}");
                all_come_back(&mut course, till, capacities.image_bytes());
                look(&course);
                emptied[round % 3] += 1;
            }
        }
        assert_eq!(course.call(&Call::Tally), [0; 4]);
        course.call(&Call::Backup { till: 0, image: vec![1] });
    }
    println!("{emptied:?} versions retired");
    assert!(emptied.iter().all(|&often| often > 200), "{emptied:?}");
}

/// Every call that names a version refuses this one so, whatever room it has.
fn refuse(course: &mut Course, till: u32, version: u32, refusal: u32) {
    for room in [0, 64, 1_024] {
        assert_eq!(course.call(&Call::Restore { till, version, room })[0], refusal, "{version}");
        assert_eq!(course.call(&Call::WriteStream { till, version, room })[0], refusal, "{version}");
    }
    assert_eq!(course.call(&Call::Retire { till, version })[0], refusal, "{version}");
}

/// Numbers that are not held: retired ones, which were given; 0, those above the last, and all of another till.
#[test]
fn numbers_not_held() {
    let mut course = Course::new(Capacities::new(2, 6, 4, 12, 24), stores());
    for n in 0..6u8 {
        assert_eq!(course.call(&Call::Backup { till: 0, image: vec![n + 1; 64] })[0], 0);
    }
    for version in [3, 6, 1] {
        assert_eq!(course.call(&Call::Retire { till: 0, version })[0], 0);
    }
    assert_eq!(course.call(&Call::Listing { till: 0 }), [0, 2, 5, 6]);
    [1, 3, 6].into_iter().for_each(|version| refuse(&mut course, 0, version, 18));
    [0, 7, 8, 65_535, 65_536, u32::MAX].into_iter().for_each(|version| refuse(&mut course, 0, version, 17));
    (0..=7).chain([u32::MAX]).for_each(|version| refuse(&mut course, 1, version, 17));
    (0..=7).chain([u32::MAX]).for_each(|version| refuse(&mut course, 2, version, 3));
    assert_eq!(course.call(&Call::Backup { till: 0, image: vec![9] })[..2], [0, 7]);
    assert_eq!(course.call(&Call::Listing { till: 0 }), [0, 2, 7, 7]);
    look(&course);
    for version in [2, 4, 5, 7] {
        assert_eq!(course.call(&Call::Retire { till: 0, version })[0], 0);
    }
    (1..=7).for_each(|version| refuse(&mut course, 0, version, 18));
    [0, 8].into_iter().for_each(|version| refuse(&mut course, 0, version, 17));
}

/// A till with three versions and each of the numbers 0 to 6 in each slot, for several last numbers: sound exactly if
/// they rise, from at least 1 up to at most the last.
#[test]
fn every_numbering() {
    let stores = stores();
    let mut one = Trial::new(stores[0].as_ref(), Capacities::new(1, 4, 9, 5, 18));
    for image in ["ABCDEFGH", "ABCDEFGZ", "AB"] {
        assert_eq!(one.file(image)[0], 0);
    }
    let calls = each_call(&mut Random::new(seed()), &one.pool, &one.table);
    let slots = [12, 24, 36];
    assert_eq!(slots.map(|at| one.table[at]), [1, 2, 3]);
    let (mut sound, mut unsound) = (0, 0);
    for last in [0, 2, 3, 4, 5, 65_535, 65_536] {
        for n in 0..343u32 {
            let numbers = [n / 49, n / 7 % 7, n % 7];
            one.table[8] = last;
            slots.into_iter().zip(numbers).for_each(|(at, number)| one.table[at] = number);
            let [first, second, third] = numbers;
            let rises = 1 <= first && first < second && second < third && third <= last && last <= 65_535;
            let refusals = compare(&one.pool, &one.table, &calls);
            assert_eq!(refusals == BTreeSet::from([10]), !rises, "{numbers:?}, last {last}: {refusals:?}");
            assert_eq!(refusals.contains(&10), !rises, "{numbers:?}, last {last}: {refusals:?}");
            if rises {
                sound += 1
            } else {
                unsound += 1
            }
        }
    }
    assert_eq!((sound, unsound), (1 + 4 + 10 + 20, 7 * 343 - 35));
}

/// The largest store: a shop's closings, where a full till loses its newest, its oldest or one between.
#[test]
fn closings() {
    let mut random = Random::new(seed());
    let mut course = Course::new(Capacities::LARGEST, stores());
    let mut shop = Shop::new(seed(), 16);
    for day in 0..80 * times() {
        for till in 0..4 {
            let held = numbers(&course, till);
            let order = *random.pick(&[Order::NewestFirst, Order::OldestFirst, Order::Any, Order::Any]);
            if held.len() == 64 || random.percent(5) && !held.is_empty() {
                let version = next(&mut random, &held, order);
                assert_eq!(course.call(&Call::Retire { till, version })[0], 0);
            }
            let image = shop.close(till as usize).to_vec();
            assert_eq!(course.call(&Call::Backup { till, image })[0], 0, "day {day}, till {till}");
            let version = *random.pick(&numbers(&course, till));
            assert_eq!(course.call(&Call::Restore { till, version, room: LENGTH })[0], 0);
        }
        course.call(&Call::Listing { till: random.below(16) as u32 });
    }
    look(&course);
    println!("{:?}", course.events);
    assert!(course.events.direct > 1_000 && course.events.indirect > 1_000, "{:?}", course.events);
}
