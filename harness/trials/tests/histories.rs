//! Long random lists of calls on small stores.

use keeper::calls::Style;
use keeper::events::Events;
use keeper::{Call, Course, Random};
use std::collections::BTreeSet;
use terms::{Capacities, BLOCK_BYTES, SEGMENT_BLOCKS};
use trials::{history, seed, stores, times};

/// Many small stores of any measures; together they go every way of the method and meet every refusal of a sound store.
#[test]
fn small_stores() {
    let mut random = Random::new(seed());
    let (mut met, mut events) = (BTreeSet::new(), Events::default());
    let (mut pairs, mut percentages) = (BTreeSet::new(), BTreeSet::new());
    for _ in 0..400 * times() {
        let (capacities, style) = history::small(&mut random);
        let course = history::run(random.number(), capacities, style, 600, 40);
        met.extend(course.met);
        events += course.events;
        pairs.insert((capacities.block_bytes, capacities.segment_blocks));
        percentages.insert(capacities.rebuild_percent);
    }
    println!("{events:?}, {} percentages", percentages.len());
    assert!(events.each().iter().all(|&often| often > 50), "{events:?}");
    assert_eq!(pairs.len(), 12);
    assert!([0, 20, 100].iter().all(|one| percentages.contains(one)) && percentages.len() > 30, "{percentages:?}");
    assert_eq!(met, every_refusal());
}

/// What each call on a sound store can answer, and each image of a closing.
fn every_refusal() -> BTreeSet<(char, u32)> {
    let wanted = [
        ('l', &[0, 1][..]),
        ('o', &[1, 2]),
        ('b', &[0, 3, 4, 11, 14, 16, 22, 23]),
        ('d', &[0, 3, 4, 11, 14, 16, 22, 23, 28]),
        ('r', &[0, 3, 5, 17, 18, 22, 23]),
        ('q', &[0, 3, 17, 18, 22, 23]),
        ('i', &[0, 3, 22, 23]),
        ('v', &[0, 3, 22, 23, 29]),
        ('t', &[0, 22, 23]),
        ('p', &[0, 22, 23, 30]),
        ('k', &[0, 3, 22, 23]),
        ('s', &[0, 3, 5, 17, 18, 22, 23]),
        ('f', &[0, 3, 4, 22, 23]),
        ('m', &[0, 3, 4, 11, 14, 16, 19, 20, 22, 23]),
        ('a', &[0, 4]),
        ('c', &[0, 3, 4, 11, 14, 16, 22, 23]),
    ];
    wanted.into_iter().flat_map(|(call, numbers)| numbers.iter().map(move |&number| (call, number))).collect()
}

/// At every size of blocks and segments: at 0 percent a record that loses a position is always to be copied together, at
/// 100 percent never.
#[test]
fn ends_of_the_percentage() {
    let pairs = BLOCK_BYTES.into_iter().flat_map(|bytes| SEGMENT_BLOCKS.map(|blocks| [bytes, blocks]));
    for (round, [bytes, blocks]) in (0..).zip(pairs) {
        for percentage in [0, 100] {
            let capacities = Capacities::new(2, 5, 3 * blocks, 16, 8 * blocks).measured([bytes, blocks, percentage]);
            let style = Style { retires: 20, kinds: 8 };
            let events = history::run(seed() + round, capacities, style, 300 * times(), 60).events;
            let (cleared, rebuilt, stuck) = (events.cleared > 0, events.rebuilt > 0, events.stuck > 0);
            assert_eq!(
                (cleared, rebuilt || stuck),
                (percentage == 100, percentage == 0),
                "{bytes} x {blocks}: {events:?}"
            );
        }
    }
}

/// A till's numbers run to 65,535 and no further.
#[test]
fn all_numbers() {
    let mut course = Course::new(Capacities::new(1, 2, 1, 2, 3), stores());
    for version in 1..=65_535u32 {
        assert_eq!(course.call(&Call::Backup { till: 0, image: version.to_le_bytes().to_vec() })[..2], [0, version]);
        if version > 1 {
            assert_eq!(course.call(&Call::Retire { till: 0, version: version - 1 })[0], 0);
        }
    }
    assert_eq!(course.call(&Call::Backup { till: 0, image: vec![1] })[0], 12);
    assert_eq!(course.call(&Call::Retire { till: 0, version: 65_535 })[0], 0);
    for (version, refusal) in [(0, 17), (1, 18), (65_535, 18), (65_536, 17)] {
        assert_eq!(course.call(&Call::Restore { till: 0, version, room: 64 })[0], refusal);
    }
    assert_eq!(course.call(&Call::Backup { till: 0, image: vec![1] })[0], 12);
    assert_eq!(course.call(&Call::Listing { till: 0 }), [0, 0, 0, 65_535]);
}
