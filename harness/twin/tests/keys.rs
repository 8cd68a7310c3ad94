//! Keys for staff, put to the twin.

use keeper::apart::{Apart, Compared};
use keeper::calls::Style;
use keeper::{keys, Random};
use terms::{Calls, Capacities};
use twin::Twin;

fn twin() -> Vec<Box<dyn Calls>> {
    vec![Box::new(Twin)]
}

#[test]
fn every_right() {
    keys::every_right(twin);
}

#[test]
fn in_order() {
    keys::in_order(twin);
}

#[test]
fn of_the_owner() {
    keys::of_the_owner(twin);
}

#[test]
fn in_a_closing() {
    keys::in_a_closing(twin);
}

#[test]
fn four_bits() {
    keys::four_bits(twin);
}

#[test]
fn rights_stay() {
    keys::rights_stay(twin);
}

#[test]
fn soundness() {
    keys::soundness(twin);
}

/// Histories that differ in one till, with room enough.
#[test]
fn histories_apart() {
    let mut random = Random::new(1);
    let mut last = Compared::default();
    for _ in 0..20 {
        let mut apart = Apart::new(&mut random, Capacities::new(3, 6, 20, 400, 2_000), twin);
        apart.run(&mut random, Style { retires: 20, kinds: 6 }, 300);
        last = apart.compared;
        assert!(last.accepted > 10 && last.refused > 10 && last.apart > 10, "{last:?}");
    }
    println!("{last:?}");
}
