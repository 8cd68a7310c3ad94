//! Blank blocks, put to the proved store, the twin and the keeper: the cases worked out by hand, stores with backups
//! from before blank blocks were known, and damaged words of theirs.

use keeper::blanks;
use keeper::calls::{Before, Style};
use keeper::closings::{Shop, LENGTH};
use keeper::events::Events;
use keeper::inspect::inspect;
use keeper::trial::{letters, Trial};
use keeper::words::{kind, Kind, Words};
use keeper::{Call, Course, Random};
use std::collections::BTreeSet;
use terms::{Calls, Capacities};
use trials::compare::{compare, each_call};
use trials::{history, seed, stores, times};
use twin::{earlier, Twin};

const BLANK: u32 = 3 << 24;

fn both(case: impl Fn(&dyn Calls)) {
    stores().iter().for_each(|store| case(store.as_ref()));
}

#[test]
fn nothing_stored() {
    both(blanks::nothing_stored);
}

#[test]
fn beside_others() {
    both(blanks::beside_others);
}

#[test]
fn short_last_block() {
    both(blanks::short_last_block);
}

#[test]
fn store_from_before() {
    both(|store| blanks::store_from_before(store, earlier));
}

#[test]
fn cells_freed() {
    both(|store| blanks::cells_freed(store, earlier));
}

#[test]
fn neither_serves_the_other() {
    both(|store| blanks::neither_serves_the_other(store, earlier));
}

#[test]
fn earlier_after() {
    both(|store| blanks::earlier_after(store, earlier));
}

#[test]
fn soundness() {
    both(blanks::soundness);
}

/// Many small stores of any measures, with backups from before at first, here and there, or in stretches: the proved
/// store goes on with each as the twin does. Together they go every way of the method.
#[test]
fn stores_from_before() {
    let mut random = Random::new(seed());
    let (mut met, mut events) = (BTreeSet::new(), Events::default());
    for round in 0..300 * times() {
        let (capacities, style) = history::small(&mut random);
        let before = [Before::FirstThird, Before::Half, Before::Stretches][round % 3];
        let mut course = history::run_from_before(random.number(), capacities, style, (400, 40), before);
        restore_all(&mut course, capacities);
        met.extend(course.met);
        events += course.events;
    }
    println!("{events:?}");
    assert!(events.each().iter().chain(&events.each_from_before()).all(|&often| often > 50), "{events:?}");
    let wanted = [('e', 0), ('e', 14), ('e', 16), ('b', 0), ('b', 14), ('b', 16), ('r', 0), ('q', 0)];
    assert!(wanted.iter().all(|one| met.contains(one)), "{met:?}");
}

/// Every version that is held comes back as the keeper has it.
fn restore_all(course: &mut Course, capacities: Capacities) {
    for till in 0..capacities.tills {
        let held: Vec<u32> = course.keeper().tills()[till as usize].held.keys().copied().collect();
        for version in held {
            assert_eq!(course.call(&Call::Restore { till, version, room: capacities.image_bytes() })[0], 0);
        }
    }
}

/// A shop whose tills have the chip that erases to 255: 6 days as before, then 6 with blank blocks.
#[test]
fn closings_from_before() {
    for measures in [[64, 8, 20], [512, 16, 20], [128, 4, 50]] {
        let mut course = Course::new(Capacities::largest(measures), stores()).with_earlier(earlier);
        let mut shop = Shop::erased(seed(), 16);
        for (day, till) in (0..12).flat_map(|day| (0..16).map(move |till| (day, till))) {
            let call = Call::Backup { till, image: shop.close(till as usize).to_vec() };
            let call = if day < 6 { call.made_before() } else { call };
            assert_eq!(course.call(&call)[0], 0, "day {day}, till {till}");
            assert_eq!(course.call(&Call::Restore { till, version: 1 + day / 2, room: LENGTH })[0], 0);
        }
        inspect(course.buffers().0, course.buffers().1, course.keeper());
        println!("{measures:?}: {:?}", course.events);
        assert!(course.events.turned_blank > 16 && course.events.taken_with_blanks > 16, "{:?}", course.events);
    }
}

/// Random lists on the largest stores.
#[test]
fn large_stores_from_before() {
    for (round, measures) in (0..).zip([[64, 8, 20], [512, 16, 0], [64, 4, 60]]) {
        let style = Style { retires: 20, kinds: 60 };
        let lengths = (100 * times(), 50);
        let before = [Before::FirstThird, Before::Half, Before::Stretches][round as usize];
        let course = history::run_from_before(seed() + round, Capacities::largest(measures), style, lengths, before);
        assert!(course.events.each_from_before()[0] > 0, "{:?}", course.events);
    }
}

/// A till with four versions, two from before and two with blank blocks. All have the same short last block, so that
/// the older ones' is traced through the newer ones.
fn four_versions(measures: [u32; 3]) -> Trial<'static> {
    let mut one = Trial::new(&Twin, Capacities::new(1, 5, 9, 6, 40).measured(measures));
    let bytes = measures[0] as usize;
    for (n, text) in ["A##BC", "#.AC", "AB#DC", "#D#.C"].into_iter().enumerate() {
        let mut image = letters(text, measures[0]);
        image.truncate(image.len() - bytes + 10);
        let answer = if n < 2 { earlier(&mut one.pool, &mut one.table, 0, &image) } else { one.backup(&image) };
        assert_eq!(answer, [0, n as u32 + 1]);
    }
    one
}

/// Whether both stores find it sound, with the same answers to every call.
fn found_sound(one: &Trial, calls: &[(u32, Call)]) -> bool {
    let refusals = compare(&one.pool, &one.table, calls);
    assert!(!refusals.contains(&10) || refusals == BTreeSet::from([10]), "{refusals:?}");
    !refusals.contains(&10)
}

/// Every mask of blank positions in every record: sound exactly if the other two have none of it, no position is past
/// the last, and the record holds one.
#[test]
fn every_mask() {
    for positions in [4, 8, 16] {
        let mut one = four_versions([64, positions, 100]);
        let calls = each_call(&mut Random::new(seed()), &one.pool, &one.table);
        let (at, size) = (one.records_at(), 3 + 2 * positions as usize);
        let (mut sound, mut unsound) = (0, 0);
        for record in 0..6 {
            let words = one.table[at + record * size..][..3].to_vec();
            let masks = (0..1u32 << 9).map(|mask| if positions == 16 { mask.rotate_left(8) } else { mask });
            for mask in masks.chain([1 << 16, 1 << 31, u32::MAX]) {
                one.table[at + record * size + 2] = mask;
                let apart = mask & (words[0] | words[1]) == 0 && u64::from(mask) < 1 << positions;
                let expected = apart && (words[0] != 0 || mask == 0);
                assert_eq!(found_sound(&one, &calls), expected, "record {record} {words:?}, mask {mask:b}");
                if expected {
                    sound += 1
                } else {
                    unsound += 1
                }
            }
            one.table[at + record * size + 2] = words[2];
        }
        println!("{positions} positions: {sound} sound, {unsound} unsound");
        assert!(sound > 20 && unsound > 1_000);
    }
}

/// The blocks that are gone through from the last block of each version that is not whole, by slot and block.
fn ways_of_short_blocks(one: &Trial, capacities: Capacities) -> BTreeSet<(usize, usize)> {
    let words = Words::new(&one.table, capacities);
    let mut ways = BTreeSet::new();
    for slot in 0..words.numbers(0).len() {
        let length = one.table[12 + slot * (3 + capacities.blocks as usize) + 1] as usize;
        let (mut slot, mut block) = (slot, length / capacities.block_bytes as usize);
        if length.is_multiple_of(capacities.block_bytes as usize) {
            continue;
        }
        ways.insert((slot, block));
        while let Kind::Indirect(next) = kind(words.pointers(0, slot)[block]) {
            (slot, block) = (slot + 1, next);
            ways.insert((slot, block));
        }
    }
    ways
}

/// Every pointer of four versions replaced by a null or a blank one, or by a word near that: sound exactly if nothing was
/// counted there, no indirect pointer names a null one, and no last block that is not whole comes out blank.
#[test]
fn every_pointer() {
    let measures = [64, 8, 20];
    let capacities = Capacities::new(1, 5, 9, 6, 40).measured(measures);
    let mut one = four_versions(measures);
    let calls = each_call(&mut Random::new(seed()), &one.pool, &one.table);
    assert!(found_sound(&one, &calls));
    let ways = ways_of_short_blocks(&one, capacities);
    let blocks = [5, 4, 5, 5];
    let (mut sound, mut unsound) = (0, 0);
    for (slot, block) in (0..4).flat_map(|slot| (0..9).map(move |block| (slot, block))) {
        let at = 12 + slot * 12 + 3 + block;
        let before = one.table[at];
        let older = slot.checked_sub(1).map_or(vec![], |older| one.pointers(older, 9).to_vec());
        let named = older.iter().any(|&word| kind(word) == Kind::Indirect(block));
        for word in [0, BLANK, BLANK + 1, BLANK - 1, 4 << 24, BLANK + (1 << 23), BLANK | 1 << 31] {
            one.table[at] = word;
            let expected = match word {
                0 if block >= blocks[slot] => true,
                0 => before == 0 || kind(before) != Kind::Direct && !named,
                BLANK => block < blocks[slot] && kind(before) != Kind::Direct && !ways.contains(&(slot, block)),
                _ => false,
            };
            assert_eq!(found_sound(&one, &calls), expected, "slot {slot}, block {block}: {before:x} now {word:x}");
            if expected {
                sound += 1
            } else {
                unsound += 1
            }
        }
        one.table[at] = before;
    }
    println!("{sound} sound, {unsound} unsound");
    assert!(sound > 20 && unsound > 100);
}

/// A last block that is blank by its own pointer, or by an indirect one that names a blank one, is sound if it is whole,
/// and at no other length.
#[test]
fn blank_last_blocks() {
    for bytes in [64, 128, 512] {
        let mut one = Trial::new(&Twin, Capacities::new(1, 4, 4, 4, 16).measured([bytes, 4, 20]));
        for (text, before) in [("A#", true), ("#A", true), ("AB", false), ("B#", false)] {
            let answer = if before { one.file_by(earlier, 0, text) } else { one.file(text) };
            assert_eq!(answer[0], 0);
        }
        let calls = each_call(&mut Random::new(seed()), &one.pool, &one.table);
        // Of version 1 and of version 4; their last blocks are indirect to a blank one, and blank.
        for (slot, word) in [(0, 2 << 24), (3, BLANK)] {
            let at = 12 + slot * 7;
            assert_eq!(one.table[at + 4], word);
            for length in bytes - 2..=2 * bytes {
                one.table[at + 1] = length;
                let expected = length == 2 * bytes;
                assert_eq!(found_sound(&one, &calls), expected, "slot {slot}, length {length} of {bytes}");
            }
            one.table[at + 1] = 2 * bytes;
        }
    }
}
