//! Long lists of calls, the twin against the keeper of whole images.

use keeper::calls::{Before, List, Style};
use keeper::closings::Shop;
use keeper::events::Events;
use keeper::inspect::{days_never_fall, inspect};
use keeper::{Call, Course, Random};
use terms::{Capacities, BLOCK_BYTES, SEGMENT_BLOCKS};
use twin::{earlier, Twin};

fn history(seed: u64, capacities: Capacities, style: Style, calls: usize) {
    history_from_before(seed, capacities, style, calls, Before::Never);
}

/// The same where some backups are by the rule from before blank blocks were known.
fn history_from_before(seed: u64, capacities: Capacities, style: Style, calls: usize, before: Before) -> Events {
    let mut random = Random::new(seed);
    let list = List::new(&mut random, capacities, style);
    let mut course = Course::new(capacities, vec![Box::new(Twin)]).with_earlier(earlier);
    for n in 0..calls {
        let (user, call) = list.next(&mut random, &course);
        course.call_by(user, &before.made(&mut random, n, calls, call));
        if n % 50 == 0 {
            inspect(course.buffers().0, course.buffers().1, course.keeper());
            days_never_fall(course.buffers().1);
        }
    }
    course.events
}

#[test]
fn small_stores() {
    for seed in 0..40 {
        let cells = [6, 12, 24, 48, 200][seed as usize % 5];
        let capacities = Capacities::new(1 + seed as u32 % 3, 1 + seed as u32 % 7, 20, 4 + seed as u32, cells);
        history(seed, capacities, Style { retires: 20, kinds: 3 + seed as usize % 9 }, 1_000);
    }
}

#[test]
fn all_measures() {
    for (seed, measures) in all_pairs() {
        for percentage in [0, 20, 50, 100] {
            let [bytes, blocks] = measures;
            let capacities = Capacities::new(2, 4, 3 * blocks, 12, 6 * blocks).measured([bytes, blocks, percentage]);
            history(seed, capacities, Style { retires: 25, kinds: 6 }, 250);
        }
    }
}

/// Every size of a block with every size of a segment, and a seed for each.
fn all_pairs() -> impl Iterator<Item = (u64, [u32; 2])> {
    let pairs = BLOCK_BYTES.into_iter().flat_map(|bytes| SEGMENT_BLOCKS.map(|blocks| [bytes, blocks]));
    (100..).zip(pairs)
}

#[test]
fn stores_from_before() {
    let mut events = Events::default();
    for seed in 0..60 {
        let measures = Random::new(seed).measures();
        let blocks = measures[1];
        let capacities = Capacities::new(2, 5, 3 * blocks, 14, 8 * blocks).measured(measures);
        let before = [Before::FirstThird, Before::Half, Before::Stretches][seed as usize % 3];
        events += history_from_before(seed, capacities, Style { retires: 20, kinds: 5 }, 500, before);
    }
    assert!(events.each_from_before().iter().all(|&often| often > 50), "{events:?}");
}

#[test]
fn a_shop() {
    let capacities = Capacities::new(4, 16, 520, 600, 4_000);
    let mut course = Course::new(capacities, vec![Box::new(Twin)]);
    let mut shop = Shop::new(1, 4);
    for day in 0..40 {
        for till in 0..4 {
            let oldest = course.keeper().tills()[till as usize].oldest();
            if day >= 16 {
                assert_eq!(course.call(&Call::Retire { till, version: oldest })[0], 0);
            }
            let image = shop.close(till as usize).to_vec();
            assert_eq!(course.call(&Call::Backup { till, image })[0], 0, "day {day}, till {till}");
            let oldest = course.keeper().tills()[till as usize].oldest();
            course.call(&Call::Restore { till, version: oldest, room: 40_000 });
        }
        inspect(course.buffers().0, course.buffers().1, course.keeper());
    }
}
