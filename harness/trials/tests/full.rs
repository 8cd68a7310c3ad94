//! Stores of the largest capacities: 16 tills, 64 versions, images of 33,268 bytes and more, pools of 2 to 16 MiB.

use keeper::calls::Style;
use keeper::closings::{Shop, LENGTH};
use keeper::dense::Dense;
use keeper::inspect::inspect;
use keeper::{Call, Course, Random};
use terms::{Capacities, BASE};
use trials::{history, seed, stores, times};

fn look(course: &Course) {
    let (pool, table) = course.buffers();
    inspect(pool, table, course.keeper());
}

/// Retires the till's oldest version if it holds all that it can.
fn make_room(course: &mut Course, till: u32) {
    let held = &course.keeper().tills()[till as usize];
    if held.held.len() == 64 {
        let version = held.oldest();
        assert_eq!(course.call(&Call::Retire { till, version })[0], 0);
    }
}

fn restore_any(course: &mut Course, random: &mut Random) {
    let till = random.below(16) as u32;
    let listing = course.keeper().tills()[till as usize].listing();
    let version = random.between(listing.oldest as usize, listing.newest as usize) as u32;
    assert_eq!(course.call(&Call::Restore { till, version, room: LENGTH + 100 })[0], 0);
}

/// A shop's closings for so many days, the oldest retired where a till is full.
fn a_shop(capacities: Capacities, days: usize) -> (Course, Shop) {
    let mut random = Random::new(seed());
    let mut course = Course::new(capacities, stores());
    let mut shop = Shop::new(seed(), 16);
    for day in 0..days {
        if day % 20 == 19 {
            shop.update();
        }
        for till in 0..16 {
            make_room(&mut course, till);
            let image = shop.close(till as usize).to_vec();
            assert_eq!(course.call(&Call::Backup { till, image })[0], 0, "day {day}, till {till}");
        }
        (0..4).for_each(|_| restore_any(&mut course, &mut random));
        course.call(&Call::Tally);
    }
    look(&course);
    (course, shop)
}

/// 64 days, then more; in the end every till is full.
#[test]
fn closings() {
    let (mut course, mut shop) = a_shop(Capacities::LARGEST, 64 + 4 * times());
    for till in 0..16 {
        let image = shop.close(till as usize).to_vec();
        assert_eq!(course.call(&Call::Backup { till, image })[0], 11);
    }
}

#[test]
fn closings_in_large_blocks() {
    a_shop(Capacities::largest([512, 16, 20]), 6 * times());
}

#[test]
fn closings_in_small_segments() {
    a_shop(Capacities::largest([64, 4, 20]), 12 * times());
}

/// Nothing is shared, so that something runs out: this is refused with one number, until versions are retired.
fn to_the_brim(capacities: Capacities, number: u32) {
    let mut course = Course::new(capacities, stores());
    let segment = capacities.block_bytes * capacities.segment_blocks;
    let mut dense = Dense::new(seed(), 16, 65_536, segment as usize, 4);
    let mut image = |till: u32| dense.close(till as usize).to_vec();
    let mut refused = 0;
    for till in (0..16).cycle() {
        refused += (course.call(&Call::Backup { till, image: image(till) })[0] != 0) as usize;
        if refused == 20 {
            break;
        }
    }
    look(&course);
    for till in 0..16 {
        let version = course.keeper().tills()[till as usize].oldest();
        assert_eq!(course.call(&Call::Retire { till, version })[0], 0);
        course.call(&Call::Backup { till, image: image(till) });
    }
    let wanted = [('b', 0), ('b', number), ('q', 0)];
    assert!(wanted.iter().all(|one| course.met.contains(one)) && course.met.len() == 3, "{:?}", course.met);
    look(&course);
}

#[test]
fn out_of_records() {
    to_the_brim(Capacities::LARGEST, 14);
}

#[test]
fn out_of_cells() {
    to_the_brim(Capacities { cells: 24_000, ..Capacities::LARGEST }, 16);
}

#[test]
fn out_of_records_of_small_segments() {
    to_the_brim(Capacities::largest([64, 4, 20]), 14);
}

#[test]
fn out_of_large_cells() {
    to_the_brim(Capacities { cells: 6_000, ..Capacities::largest([512, 16, 20]) }, 16);
}

/// Random lists.
#[test]
fn random_lists() {
    for (round, kinds, calls, measures) in
        [(0, 40, 600, BASE), (1, 2_000, 600, BASE), (2, 60, 150, [512, 16, 0]), (3, 400, 150, [64, 4, 60])]
    {
        let style = Style { retires: 20, kinds };
        let course = history::run(seed() + round, Capacities::largest(measures), style, calls * times(), 150);
        println!("{} of {} accepted, {:?}, {:?}", course.accepted, course.made, course.events, course.met);
    }
}
