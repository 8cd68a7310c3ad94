//! The proved store and the twin, call by call.

pub mod chained;
pub mod compare;
pub mod damage;
pub mod history;

use std::env;
use terms::{Calls, ChainCalls};

/// The proved store first, then the twin.
pub fn stores() -> Vec<Box<dyn Calls>> {
    vec![Box::new(lurdempos::Proved), Box::new(twin::Twin)]
}

/// Their chains, in the same order.
pub fn chains() -> Vec<Box<dyn ChainCalls>> {
    vec![Box::new(lurdempos::Proved), Box::new(twin::Twin)]
}

/// The seed of this run: fixed, or the one that LURDEMPOS_SEED names.
pub fn seed() -> u64 {
    variable("LURDEMPOS_SEED", 1)
}

/// How many times longer than usual the tests run, by LURDEMPOS_TIMES.
pub fn times() -> usize {
    variable("LURDEMPOS_TIMES", 1) as usize
}

fn variable(name: &str, otherwise: u64) -> u64 {
    env::var(name).map_or(otherwise, |text| text.parse().unwrap_or_else(|_| panic!("{name} is a number")))
}
