//! Several stores on one disk, put to the twin.

use keeper::beside::{Beside, CASES};
use keeper::calls::Style;
use keeper::chain::{Chain, Seen};
use keeper::disks::sound_chain;
use keeper::limits::Lists;
use keeper::small::small;
use keeper::{chains, Random};
use terms::Capacities;
use twin::Twin;

#[test]
fn every_call() {
    chains::every_call(&Twin);
}

#[test]
fn counts() {
    chains::counts(&Twin);
}

#[test]
fn lengths() {
    chains::lengths(&Twin);
}

#[test]
fn one_unsound() {
    chains::one_unsound(&Twin);
}

#[test]
fn outside() {
    chains::outside(&Twin);
}

#[test]
fn at_the_limit() {
    chains::at_the_limit(&Twin);
}

#[test]
fn room_by_removal() {
    chains::room_by_removal(&Twin);
}

#[test]
fn retire_above() {
    chains::retire_above(&Twin);
}

#[test]
fn after_all_others() {
    chains::after_all_others(&Twin);
}

#[test]
fn closings() {
    chains::closings(&Twin);
}

/// What is worked out for a store alone goes for one between any others.
#[test]
fn beside_others() {
    let mut random = Random::new(1);
    for (before, after) in [(0, 0), (1, 0), (0, 2), (3, 4)] {
        let (before, after) = (sound_chain(&mut random, before), sound_chain(&mut random, after));
        let beside = Beside::new(Box::new(Twin), before, after);
        CASES.iter().for_each(|case| case(&beside));
    }
}

/// Lists of calls on chains of any settings, with limits about what is occupied.
#[test]
fn histories() {
    let mut random = Random::new(1);
    let mut seen = Seen::default();
    for stores in (1..=8).cycle().take(24) {
        let settings: Vec<(Capacities, Style)> = (0..stores).map(|_| small(&mut random)).collect();
        let capacities: Vec<Capacities> = settings.iter().map(|&(capacities, _)| capacities).collect();
        let mut chain = Chain::new(&capacities, vec![Box::new(Twin)], || Box::new(Twin));
        let lists = Lists::new(&mut random, &settings);
        for _ in 0..120 {
            let (target, user, call) = lists.next(&mut random, &mut chain);
            chain.call(target, user, &call);
        }
        chain.restore_all();
        seen += chain.seen;
    }
    println!("{seen:?}");
    assert!(seen.each().iter().all(|&often| often > 5), "{seen:?}");
}
