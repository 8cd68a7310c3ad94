//! Keys for staff, put to the proved store, the twin and the keeper: the cases worked out by hand, random lists of calls by
//! every user with changes of rights, and two histories side by side that differ only in accepted calls on one till.

use keeper::apart::{Apart, Compared};
use keeper::calls::{Before, List, Style};
use keeper::inspect::inspect;
use keeper::trial::Trial;
use keeper::{keys, Call, Course, Random};
use std::collections::{BTreeMap, BTreeSet};
use terms::{Capacities, Collected, Right, Rights, OWNER, USERS};
use trials::compare::{compare, each_call};
use trials::{history, seed, stores, times};
use twin::{earlier, Twin};

#[test]
fn every_right() {
    keys::every_right(stores);
}

#[test]
fn in_order() {
    keys::in_order(stores);
}

#[test]
fn of_the_owner() {
    keys::of_the_owner(stores);
}

#[test]
fn in_a_closing() {
    keys::in_a_closing(stores);
}

#[test]
fn four_bits() {
    keys::four_bits(stores);
}

#[test]
fn rights_stay() {
    keys::rights_stay(stores);
}

#[test]
fn soundness() {
    keys::soundness(stores);
}

/// How often each call of each user was answered so.
type Met = BTreeMap<(&'static str, u32), usize>;

fn kind(call: &Call) -> &'static str {
    match call.needs() {
        Some((_, Right::List)) => "list",
        Some((_, Right::BackUp)) => "back up",
        Some((_, Right::Restore)) => "restore",
        Some((_, Right::Retire)) => "retire",
        None if matches!(call, Call::SetRights { .. }) => "set rights",
        None if matches!(call, Call::Tally) => "tally",
        None if matches!(call, Call::Bill { .. }) => "bill",
        None => "",
    }
}

/// Random lists on small stores of any measures, by all users, also on stores that begin before there were users: every
/// byte, word and field is the twin's, and what is refused is what the keeper has.
#[test]
fn lists_with_staff() {
    let mut random = Random::new(seed());
    let (mut met, mut words) = (Met::new(), BTreeSet::new());
    for round in 0..200 * times() {
        let (capacities, style) = history::small(&mut random);
        let list = List::new(&mut random, capacities, style).with_staff();
        let mut course = Course::new(capacities, stores()).with_earlier(earlier);
        let before = [Before::Never, Before::FirstThird, Before::Half][round % 3];
        for n in 0..240 {
            let (user, call) = list.next(&mut random, &course);
            let call = before.made(&mut random, n, 240, call);
            let refusal = course.call_by(user, &call)[0];
            if user != OWNER {
                *met.entry((kind(&call), refusal)).or_default() += 1;
            }
            words.insert(course.buffers().1[10]);
        }
        inspect(course.buffers().0, course.buffers().1, course.keeper());
    }
    println!("{met:?}, {} words of rights", words.len());
    for kind in ["list", "back up", "restore", "retire"] {
        assert!([0, 22, 23].iter().all(|&number| met[&(kind, number)] > 20) && met[&(kind, 3)] > 0, "{kind}: {met:?}");
    }
    [22, 23].iter().for_each(|&number| assert!(met[&("tally", number)] > 20 && met[&("set rights", number)] > 20));
    assert!(words.len() > 100 && words.iter().all(|word| word >> 28 == 0));
}

/// A store with every word of rights that has one bit, or lacks one: each call of each user is answered alike by both,
/// with 23 or not as the bit has it.
#[test]
fn every_bit() {
    let mut one = Trial::new(&Twin, Capacities::new(2, 5, 9, 8, 40));
    ["ABCDEFGH", "ABCDEFGZ"].iter().for_each(|text| assert_eq!(one.file(text)[0], 0));
    let mut random = Random::new(seed());
    let calls: Vec<Call> = each_call(&mut random, &one.pool, &one.table).into_iter().map(|(_, call)| call).collect();
    let mut refused = 0;
    for word in (0..28).flat_map(|bit| [1 << bit, 0x0fff_ffff ^ 1 << bit]) {
        (one.table[10], one.table[10 + 4 + 5 * 12]) = (word, word);
        for (user, call) in (0..USERS + 2).flat_map(|user| calls.iter().map(move |call| (user, call.clone()))) {
            let needed = call.needs();
            let said = compare(&one.pool, &one.table, &[(user, call)]);
            if let (Some((_, right)), 0..USERS) = (needed, user) {
                assert_eq!(said.contains(&23), !Rights::of_word(word, user).has(right), "{word:x}, user {user}");
                refused += said.contains(&23) as usize;
            }
        }
    }
    assert!(refused > 1_000);
}

/// Histories that differ in accepted calls on one till: with room enough, and with so little that some end early.
#[test]
fn histories_apart() {
    let mut random = Random::new(seed());
    let mut sum = Compared::default();
    for round in 0..120 * times() {
        let (records, cells) = [(400, 2_000), (400, 2_000), (30, 60)][round % 3];
        let measures = random.measures();
        let capacities = Capacities::new(random.between(2, 4) as u32, 6, 20, records, cells).measured(measures);
        let style = Style { retires: *random.pick(&[5, 20, 40]), kinds: random.between(3, 12) };
        let mut apart = Apart::new(&mut random, capacities, stores);
        apart.run(&mut random, style, 250);
        sum += apart.compared;
    }
    println!("{sum:?}");
    assert!(sum.accepted > 3_000 && sum.refused > 1_000 && sum.on_the_till > 500 && sum.apart > 2_000, "{sum:?}");
    assert!(sum.other_marks > 5 && sum.ended > 10, "{sum:?}");
}

/// What the page leaves out does tell of a till without a right: marks of the first message, and a segment that is had.
#[test]
fn marks_tell_of_other_tills() {
    let image = [7; 64];
    let mut said = BTreeSet::new();
    for has in [false, true] {
        let mut course = Course::new(Capacities::new(2, 4, 8, 4, 8), stores());
        course.call(&Call::SetRights { subject: 1, till: 1, rights: Rights::ALL });
        if has {
            assert_eq!(course.call(&Call::All(Collected::of([(0, &image[..])])))[0], 0);
        }
        let print = course.print(&[&image[..], &[0; 448]].concat());
        let offer = Call::Offer { till: 1, fingerprints: print.to_vec(), room: 1 };
        assert_eq!(course.call_by(1, &Call::Listing { till: 0 })[0], 23);
        said.insert(course.answered(1, &offer).1);
    }
    assert_eq!(said, BTreeSet::from([vec![0], vec![1]]));
}
