//! Storage billed, put to the proved store and the twin: the cases worked out by hand, and random lists in which each
//! bill is compared, till by till, and added up.

use keeper::calls::{any_price, List};
use keeper::sketch::sound_store;
use keeper::{bills, Call, Course, Random};
use std::collections::{BTreeMap, BTreeSet};
use terms::{Calls, Capacities, MOST_TILLS, OWNER, USERS};
use trials::compare::compare;
use trials::{history, seed, stores, times};

fn both(case: impl Fn(&dyn Calls)) {
    stores().iter().for_each(|store| case(store.as_ref()));
}

#[test]
fn three_tills() {
    both(bills::three_tills);
}

#[test]
fn all_tills() {
    both(bills::all_tills);
}

#[test]
fn empty() {
    both(bills::empty);
}

#[test]
fn two_references() {
    both(bills::two_references);
}

#[test]
fn a_version_that_went() {
    both(bills::a_version_that_went);
}

#[test]
fn an_older_version() {
    both(bills::an_older_version);
}

#[test]
fn refusals() {
    both(bills::refusals);
}

/// How many bills were met in which so many tills pay.
type Paying = BTreeMap<usize, usize>;

/// Random lists on small stores of any measures with up to 16 tills, with a bill after each call.
#[test]
fn lists_with_bills() {
    let mut random = Random::new(seed());
    let mut paying = Paying::new();
    for _ in 0..150 * times() {
        let (small, style) = history::small(&mut random);
        let capacities = Capacities { tills: *random.pick(&[small.tills, 7, MOST_TILLS as u32]), ..small };
        let list = List::new(&mut random, capacities, style);
        let mut course = Course::new(capacities, stores());
        for _ in 0..80 {
            let (user, call) = list.next(&mut random, &course);
            course.call_by(user, &call);
            let numbers = course.numbers(&Call::Bill { price: any_price(&mut random) });
            let paid = numbers[1..].iter().filter(|&&sum| sum > 0).count();
            *paying.entry(paid).or_default() += 1;
        }
    }
    println!("{paying:?}");
    assert!((0..=MOST_TILLS / 2).all(|tills| paying.get(&tills).is_some_and(|&often| often > 20)), "{paying:?}");
}

/// Sound stores that no list of calls need have made, with bills of every user.
#[test]
fn any_sound_store() {
    let mut random = Random::new(seed());
    let mut met = BTreeSet::new();
    for _ in 0..400 * times() {
        let (pool, table) = sound_store(&mut random);
        let bills: Vec<(u32, Call)> =
            (OWNER..=USERS).map(|user| (user, Call::Bill { price: any_price(&mut random) })).collect();
        met.extend(compare(&pool, &table, &bills));
    }
    assert_eq!(met, BTreeSet::from([0, 22, 23, 30]));
}
