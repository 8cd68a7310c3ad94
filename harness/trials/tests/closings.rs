//! All tills at closing, put to the proved store, the twin and the keeper: the cases worked out by hand, whole shops,
//! random closings, and lists of every shape. The course holds each closing against single backups made one after the
//! other on a copy of the store, answer by answer, byte by byte and word by word, and restores what was kept.

use keeper::calls::{Before, List, Style};
use keeper::closings::Shop;
use keeper::collected::each;
use keeper::inspect::inspect;
use keeper::sketch::sound_store;
use keeper::trial::Trial;
use keeper::{together, Call, Course, Random};
use lurdempos::Proved;
use std::collections::BTreeMap;
use terms::{Calls, Capacities, Collected, BLOCK_BYTES, OWNER, SEGMENT_BLOCKS};
use trials::compare::compare;
use trials::{history, seed, stores, times};
use twin::{earlier, Twin};

fn both(case: impl Fn(&dyn Calls)) {
    stores().iter().for_each(|store| case(store.as_ref()));
}

#[test]
fn in_their_order() {
    both(together::in_their_order);
}

#[test]
fn refused_between() {
    both(together::refused_between);
}

#[test]
fn no_room() {
    both(together::no_room);
}

#[test]
fn room_that_comes() {
    both(together::room_that_comes);
}

#[test]
fn none_and_most() {
    both(together::none_and_most);
}

#[test]
fn refused_whole() {
    both(together::refused_whole);
}

/// Every version that a store holds is given back.
fn restore_all(course: &mut Course) {
    let tills = course.keeper().tills().iter().enumerate();
    let held: Vec<(u32, u32, usize)> = tills
        .flat_map(|(till, kept)| kept.held.iter().map(move |(&version, kept)| (till as u32, version, kept.image.len())))
        .collect();
    for (till, version, room) in held {
        assert_eq!(course.call(&Call::Restore { till, version, room })[0], 0);
    }
    inspect(course.buffers().0, course.buffers().1, course.keeper());
}

/// How often each refusal was met, of whole closings and of their images.
type Met = BTreeMap<(char, u32), usize>;

/// Makes a closing and counts what it was answered.
fn close(course: &mut Course, met: &mut Met, user: u32, closing: &Call) {
    let answer = course.answered(user, closing).0;
    *met.entry(('a', answer[0])).or_default() += 1;
    if let (0, Call::All(collected)) = (answer[0], closing) {
        answer[1..][..collected.tills.len()].iter().for_each(|&refusal| *met.entry(('c', refusal)).or_default() += 1);
    }
}

/// Each of these more often than so many times.
fn met_each(met: &Met, wanted: &[(char, u32)], times: usize) {
    println!("{met:?}");
    wanted.iter().for_each(|one| assert!(met.get(one).is_some_and(|&often| often > times), "{one:?} of {met:?}"));
}

/// A shop's evenings at every size of a block and of a segment: 16 images in each call, one till twice.
#[test]
fn evenings() {
    for (bytes, blocks) in BLOCK_BYTES.into_iter().flat_map(|bytes| SEGMENT_BLOCKS.map(|blocks| (bytes, blocks))) {
        let capacities = Capacities::new(15, 12, 33_280 / bytes, 2_000, 12_000).measured([bytes, blocks, 20]);
        let (mut course, mut shop) = (Course::new(capacities, stores()), Shop::new(seed(), 15));
        let mut single = Trial::new(&Proved, capacities);
        for day in 0..6 {
            let tills = (0..15).chain([day]);
            let images: Vec<(u32, Vec<u8>)> = tills.map(|till| (till as u32, shop.close(till).to_vec())).collect();
            let collected = Collected::of(images.iter().map(|(till, image)| (*till, &image[..])));
            let answer = course.numbers(&Call::All(collected));
            assert!(answer[..17].iter().all(|&refusal| refusal == 0), "day {day}: {answer:?}");
            images.iter().for_each(|(till, image)| assert_eq!(single.backup_of(*till, image)[0], 0));
        }
        let (pool, table) = course.buffers();
        assert!(pool == single.pool && table == single.table, "another store than that of single backups");
        restore_all(&mut course);
    }
}

/// Random lists on small stores of any measures in which most images come in closings, also on stores with backups from
/// before blank blocks were known.
#[test]
fn closings_of_every_kind() {
    let mut random = Random::new(seed());
    let mut met = Met::new();
    let mut twice = 0;
    for round in 0..200 * times() {
        let (capacities, style) = history::small(&mut random);
        let list = List::new(&mut random, capacities, style);
        let mut course = Course::new(capacities, stores()).with_earlier(earlier);
        let before = [Before::Never, Before::FirstThird, Before::Half][round % 3];
        for n in 0..120 {
            let closing = random.percent(40);
            if closing {
                make_room(&mut random, &mut course, capacities.versions as usize);
            }
            let (user, call) =
                if closing { list.closing_by(&mut random, &course) } else { list.next(&mut random, &course) };
            match before.made(&mut random, n, 120, call) {
                Call::All(collected) => {
                    twice += has_a_till_twice(&collected) as usize;
                    close(&mut course, &mut met, user, &Call::All(collected));
                }
                call => drop(course.call_by(user, &call)),
            }
        }
        restore_all(&mut course);
    }
    println!("{twice} closings with a till twice");
    assert!(twice > 500);
    met_each(&met, &[('a', 0), ('a', 4), ('c', 0), ('c', 3), ('c', 4), ('c', 11), ('c', 14), ('c', 16)], 100);
}

/// Most tills that are more than half full lose some versions, so that not every image is refused for a full till.
fn make_room(random: &mut Random, course: &mut Course, versions: usize) {
    for till in 0..course.keeper().tills().len() {
        while course.keeper().tills()[till].held.len() > versions / 2 && random.percent(75) {
            let held: Vec<u32> = course.keeper().tills()[till].held.keys().copied().collect();
            assert_eq!(course.call(&Call::Retire { till: till as u32, version: *random.pick(&held) })[0], 0);
        }
    }
}

fn has_a_till_twice(collected: &Collected) -> bool {
    let tills = &collected.tills;
    each(collected).is_some() && (1..tills.len()).any(|n| tills[..n].contains(&tills[n]))
}

/// Any sound stores, with tills whose numbers are almost spent, equal records, cells of 255s and records that have lost
/// positions.
#[test]
fn closings_to_any_store() {
    let mut random = Random::new(seed());
    let mut met = Met::new();
    for _ in 0..1_000 * times() {
        let (pool, table) = sound_store(&mut random);
        let capacities = Capacities::of_table(&table).expect("a sound store");
        let list = List::new(&mut random, capacities, Style { retires: 20, kinds: 4 });
        let mut course = Course::from_store(&pool, &table, stores());
        for _ in 0..4 {
            let (user, closing) = list.closing_by(&mut random, &course);
            close(&mut course, &mut met, user, &closing);
        }
        restore_all(&mut course);
    }
    let wanted = [('a', 0), ('a', 4), ('c', 0), ('c', 3), ('c', 4), ('c', 11), ('c', 12), ('c', 14), ('c', 16)];
    met_each(&met, &wanted, 5);
}

/// A store with a version, and one that is not sound.
fn two_stores() -> [(Trial<'static>, u32); 2] {
    let mut one = Trial::new(&Twin, Capacities::new(2, 9, 16, 8, 40));
    assert_eq!(one.file("ABCDEFGH"), [0, 1]);
    let mut damaged = one.clone();
    damaged.pool[64 * 39] = 1;
    [(one, 0), (damaged, 10)]
}

/// Puts lists to both stores; they say what the keeper finds, 10 first.
fn said(one: &Trial, unsound: u32, collected: Collected) -> u32 {
    let expected = if each(&collected).is_some() { 0 } else { 4 };
    let expected = if unsound == 0 { expected } else { unsound };
    let said = compare(&one.pool, &one.table, &[(OWNER, Call::All(collected.clone()))]);
    assert!(said.contains(&expected), "{collected:?}: {said:?}");
    expected
}

/// Lists of every count up to two more than there may be, with a byte too few, as many as there have to be, or one more.
#[test]
fn every_count() {
    for (one, unsound) in two_stores() {
        let mut met: BTreeMap<u32, usize> = BTreeMap::new();
        for choice in 0..19 * 19 * 3usize {
            let (tills, lengths, bytes) = (choice % 19, choice / 19 % 19, choice / 361);
            let images = vec![7; (2 * lengths + bytes).saturating_sub(1)];
            let (tills, lengths) = (vec![1; tills], vec![2; lengths]);
            *met.entry(said(&one, unsound, Collected { tills, lengths, images })).or_default() += 1;
        }
        println!("{met:?}");
        // One for each count up to 16, and none at all once more: with no byte too few.
        assert!(unsound != 0 || met[&0] == 18, "{met:?}");
    }
}

/// Lengths whose sum is right in 32 bits, and right or not in truth.
#[test]
fn sums_that_wrap() {
    const EDGES: [u32; 11] = [0, 1, 2, 64, 65, 1 << 30, 3 << 30, (1 << 31) - 1, 1 << 31, u32::MAX - 1, u32::MAX];
    let mut met: BTreeMap<u32, usize> = BTreeMap::new();
    for (one, unsound) in two_stores() {
        for choice in 0..11usize.pow(4) {
            let count = 1 + choice % 4;
            let lengths: Vec<u32> = (0..count as u32).map(|n| EDGES[choice / 11usize.pow(n) % 11]).collect();
            let sum = lengths.iter().fold(0, |sum: u32, &length| sum.wrapping_add(length));
            for bytes in [sum, sum.wrapping_sub(1), sum.wrapping_add(1)].into_iter().filter(|&bytes| bytes < 300) {
                let (tills, images) = (vec![1; count], vec![7; bytes as usize]);
                let refusal = said(&one, unsound, Collected { tills, lengths: lengths.clone(), images });
                *met.entry(refusal).or_default() += 1;
            }
        }
    }
    println!("{met:?}");
    assert!([0, 4, 10].iter().all(|refusal| met.get(refusal).is_some_and(|&often| often > 100)), "{met:?}");
}
