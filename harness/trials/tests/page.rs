//! The page's cases, put to the proved store and to the twin.

use keeper::{day, lookups, retires};
use trials::stores;

#[test]
fn days_in_a_row() {
    stores().iter().for_each(|store| day::days_in_a_row(store.as_ref()));
}

#[test]
fn fresh_stores() {
    stores().iter().for_each(|store| day::fresh_stores(store.as_ref()));
}

#[test]
fn lengths() {
    stores().iter().for_each(|store| day::lengths(store.as_ref()));
}

#[test]
fn middle_and_newest() {
    stores().iter().for_each(|store| retires::middle_and_newest(store.as_ref()));
}

#[test]
fn one_after_the_other() {
    stores().iter().for_each(|store| retires::one_after_the_other(store.as_ref()));
}

#[test]
fn counts_of_two() {
    stores().iter().for_each(|store| retires::counts_of_two(store.as_ref()));
}

#[test]
fn backup_after_the_newest() {
    stores().iter().for_each(|store| retires::backup_after_the_newest(store.as_ref()));
}

#[test]
fn neighbours_that_were_none() {
    stores().iter().for_each(|store| retires::neighbours_that_were_none(store.as_ref()));
}

#[test]
fn given_or_never() {
    stores().iter().for_each(|store| lookups::given_or_never(store.as_ref()));
}

#[test]
fn numbers_used_up() {
    stores().iter().for_each(|store| lookups::numbers_used_up(store.as_ref()));
}
