//! Versions by their day, put to the proved store, the twin and the keeper: the cases worked out by hand, random lists
//! with days, stores from before there were any, and damaged words of days.

use keeper::calls::{Before, List};
use keeper::days::{any_day, next_day};
use keeper::inspect::{days_never_fall, inspect};
use keeper::sketch::sound_store;
use keeper::trial::{letters, Trial};
use keeper::{dated, Call, Course, Random};
use std::collections::{BTreeMap, BTreeSet};
use terms::{Calls, Capacities, Sending, OWNER};
use trials::compare::{compare, each_call};
use trials::{history, seed, stores, times};
use twin::{earlier, fingerprint_of, Twin};

fn both(case: impl Fn(&dyn Calls)) {
    stores().iter().for_each(|store| case(store.as_ref()));
}

#[test]
fn by_the_day() {
    both(dated::by_the_day);
}

#[test]
fn without_a_day() {
    both(dated::without_a_day);
}

#[test]
fn newest_that_went() {
    both(dated::newest_that_went);
}

#[test]
fn ends() {
    both(dated::ends);
}

#[test]
fn from_before() {
    both(|store| dated::from_before(store, earlier));
}

#[test]
fn days_that_fall() {
    both(dated::days_that_fall);
}

#[test]
fn tills_apart() {
    both(dated::tills_apart);
}

/// What a list with days has met, and how often.
type Met = BTreeMap<&'static str, usize>;

/// Where a day lies among those that a till has.
fn place(course: &Course, till: u32, day: u32) -> &'static str {
    let days: Vec<u32> = course.keeper().tills()[till as usize].days().collect();
    match (days.iter().min(), days.iter().max()) {
        (Some(&first), _) if day < first => "before all",
        (_, Some(&last)) if day > last => "after all",
        (Some(_), _) if days.contains(&day) => "at one",
        (Some(_), _) => "between",
        (None, _) => "nothing held",
    }
}

/// Looks a till's versions up by every day that it has, those beside them, and the ends.
fn look_up_all(course: &mut Course, till: u32, met: &mut Met) {
    let held: Vec<u32> = course.keeper().tills()[till as usize].days().collect();
    let near = held.iter().flat_map(|&day| [day.saturating_sub(1), day, day.saturating_add(1)]);
    let days: BTreeSet<u32> = near.chain([0, 1, 1 << 31, u32::MAX - 1, u32::MAX]).collect();
    for day in days {
        course.call(&Call::VersionOn { till, day });
        *met.entry(place(course, till, day)).or_default() += 1;
    }
}

/// Makes a call and counts what it was: a backup with a day by where that lies, one of any other kind where there is a
/// day to take, a retire of the newest.
fn go_on(random: &mut Random, course: &mut Course, list: &List, capacities: Capacities, met: &mut Met) {
    let (user, call) = match random.below(8) {
        0 => (OWNER, list.closing(random, course)),
        _ => list.next(random, course),
    };
    let newest = |till: u32| course.keeper().till(till).map_or(0, |till| till.newest_day());
    let kind = match &call {
        Call::Dated { till, day, .. } if *day < newest(*till) => "earlier",
        Call::Dated { till, day, .. } if *day == newest(*till) => "equal",
        Call::Dated { .. } => "later",
        Call::Backup { till, .. } if newest(*till) > 0 => "plain after a day",
        Call::Sent { till, .. } if newest(*till) > 0 => "sent after a day",
        Call::All(_) if (0..capacities.tills).any(|till| newest(till) > 0) => "closing after a day",
        Call::Retire { till, version } if *version == course.keeper().till(*till).map_or(0, |till| till.newest()) => {
            "retire of the newest"
        }
        _ => "",
    };
    let refusal = course.call_by(user, &call)[0];
    if refusal == 0 || kind == "earlier" && refusal == 28 {
        *met.entry(kind).or_default() += 1;
    }
}

/// Random lists on small stores of any measures, also such as begin before there were days or have backups from before
/// among others: answers, bytes and words are the twin's and the keeper's, and days never fall.
#[test]
fn lists_with_days() {
    let mut random = Random::new(seed());
    let mut met = Met::new();
    for round in 0..200 * times() {
        let (capacities, style) = history::small(&mut random);
        let list = List::new(&mut random, capacities, style).with_days();
        let mut course = Course::new(capacities, stores()).with_earlier(earlier);
        let before = [Before::Never, Before::FirstThird, Before::Half][round % 3];
        for n in 0..40 {
            let (user, call) = list.next(&mut random, &course);
            course.call_by(user, &before.made(&mut random, n, 40, call));
        }
        for n in 0..120 {
            go_on(&mut random, &mut course, &list, capacities, &mut met);
            days_never_fall(course.buffers().1);
            if n % 20 == 19 {
                (0..capacities.tills).for_each(|till| look_up_all(&mut course, till, &mut met));
                inspect(course.buffers().0, course.buffers().1, course.keeper());
            }
        }
    }
    println!("{met:?}");
    let wanted = [
        "earlier",
        "equal",
        "later",
        "plain after a day",
        "sent after a day",
        "closing after a day",
        "retire of the newest",
        "before all",
        "after all",
        "at one",
        "between",
        "nothing held",
    ];
    wanted.iter().for_each(|kind| assert!(met.get(kind).is_some_and(|&often| often > 100), "{kind}: {met:?}"));
}

/// The newest goes again and again, between backups with days: the day to beat is its older neighbour's.
#[test]
fn newest_again_and_again() {
    let mut random = Random::new(seed());
    let (mut course, mut refused) = (Course::new(Capacities::new(2, 9, 4, 40, 60), stores()), 0);
    for n in 0..1_500 * times() {
        let till = (n % 2) as u32;
        let kept = &course.keeper().tills()[till as usize];
        let (newest, held) = (kept.newest(), kept.held.len());
        if held > 0 && (held == 9 || random.percent(40)) {
            assert_eq!(course.call(&Call::Retire { till, version: newest })[0], 0);
        }
        let day = next_day(&mut random, &course.keeper().tills()[till as usize]);
        let beat = course.keeper().tills()[till as usize].newest_day();
        let said = course.call(&Call::Dated { till, day, image: vec![n as u8 | 1; 1 + n % 200] })[0];
        assert_eq!(said, if day < beat { 28 } else { 0 }, "day {day}, to beat {beat}");
        refused += (said == 28) as usize;
        let day = any_day(&mut random, &course.keeper().tills()[till as usize]);
        course.call(&Call::VersionOn { till, day });
        days_never_fall(course.buffers().1);
    }
    println!("{refused} refused");
    assert!(refused > 100);
}

/// Stores of which no list of calls is known, with days that fall: lookups and backups go as the twin and the keeper
/// have it, for every day near those held.
#[test]
fn any_sound_stores() {
    let mut random = Random::new(seed());
    let (mut met, mut falling) = (Met::new(), 0);
    for _ in 0..1_500 * times() {
        let (pool, table) = sound_store(&mut random);
        let mut course = Course::from_store(&pool, &table, stores());
        for till in 0..course.keeper().tills().len() as u32 {
            falling += !course.keeper().tills()[till as usize].days().is_sorted() as usize;
            look_up_all(&mut course, till, &mut met);
            let day = next_day(&mut random, &course.keeper().tills()[till as usize]);
            course.call(&Call::Dated { till, day, image: vec![7; 9] });
            look_up_all(&mut course, till, &mut met);
        }
        inspect(course.buffers().0, course.buffers().1, course.keeper());
    }
    println!("{met:?}, {falling} tills with days that fall");
    assert!(falling > 100 && ["before all", "after all", "at one", "between"].iter().all(|kind| met[kind] > 500));
}

/// A till with three versions of five that it can hold, and one without any.
fn two_tills() -> Trial<'static> {
    let mut one = Trial::new(&Twin, Capacities::new(2, 5, 9, 6, 40));
    [(3, "ABCDEFGH"), (3, "ABCDEFGZ"), (8, "AB")]
        .iter()
        .for_each(|&(day, text)| assert_eq!(one.file_on(day, text)[0], 0));
    one
}

/// Every slot's day replaced: sound exactly if the slot is in use, or the day is 0 as it was.
#[test]
fn every_day_word() {
    let mut one = two_tills();
    let calls = each_call(&mut Random::new(seed()), &one.pool, &one.table);
    let (mut sound, mut unsound) = (0, 0);
    for (till, slot) in (0..2).flat_map(|till| (0..5).map(move |slot| (till, slot))) {
        let at = 8 + till * (4 + 5 * 12) + 4 + slot * 12 + 2;
        let before = one.table[at];
        assert_eq!(before, if till == 0 { [3, 3, 8, 0, 0][slot] } else { 0 });
        let bits = (0..32).map(|bit| before ^ 1 << bit);
        for day in bits.chain([0, 1, 2, 3, 4, 8, 9, u32::MAX - 1, u32::MAX]) {
            one.table[at] = day;
            let expected = till == 0 && slot < 3 || day == 0;
            let refusals = compare(&one.pool, &one.table, &calls);
            assert_eq!(refusals.contains(&10), !expected, "till {till}, slot {slot}, day {day}: {refusals:?}");
            assert!(expected || refusals == BTreeSet::from([10]), "{refusals:?}");
            if expected {
                sound += 1
            } else {
                unsound += 1
            }
        }
        one.table[at] = before;
    }
    assert_eq!((sound, unsound), (3 * 41 + 7, 7 * 40));
}

/// Every order of three days, and every day of a backup and a lookup near them.
#[test]
fn every_order() {
    let mut one = two_tills();
    let second = Sending::whole(&letters("Q", 64), 512, fingerprint_of);
    let days = [0, 1, 2, 3, u32::MAX];
    for n in 0..125usize {
        let held = [days[n / 25], days[n / 5 % 5], days[n % 5]];
        [14, 26, 38].into_iter().zip(held).for_each(|(at, day)| one.table[at] = day);
        let mut course = Course::from_store(&one.pool, &one.table, stores());
        for day in [0, 1, 2, 3, 4, u32::MAX - 1, u32::MAX] {
            let found = (0..3).rev().find(|&slot| held[slot] <= day);
            let answer = found.map_or([29, 0], |slot| [0, slot as u32 + 1]);
            assert_eq!(course.call(&Call::VersionOn { till: 0, day })[..2], answer, "{held:?}, day {day}");
        }
        for day in days {
            let mut course = Course::from_store(&one.pool, &one.table, stores());
            let said = course.call(&Call::Dated { till: 0, day, image: letters("Q", 64) })[0];
            assert_eq!(said, if day < held[2] { 28 } else { 0 }, "{held:?}, day {day}");
        }
        assert_eq!(course.call(&Call::Sent { till: 0, sending: second.clone() })[..2], [0, 4]);
        assert_eq!(course.keeper().tills()[0].newest_day(), held[2]);
        inspect(course.buffers().0, course.buffers().1, course.keeper());
    }
}
