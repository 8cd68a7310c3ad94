//! The page's cases, and their counterparts at other settings, put to the twin.

use keeper::{blanks, day, lookups, retires, settings};
use twin::{earlier, Twin};

#[test]
fn days_in_a_row() {
    day::days_in_a_row(&Twin);
}

#[test]
fn fresh_stores() {
    day::fresh_stores(&Twin);
}

#[test]
fn lengths() {
    day::lengths(&Twin);
}

#[test]
fn larger_blocks() {
    settings::larger_blocks(&Twin);
}

#[test]
fn ends_of_the_percentage() {
    settings::ends_of_the_percentage(&Twin);
}

#[test]
fn percentages_between() {
    settings::percentages_between(&Twin);
}

#[test]
fn four_blocks() {
    settings::four_blocks(&Twin);
}

#[test]
fn sixteen_blocks() {
    settings::sixteen_blocks(&Twin);
}

#[test]
fn largest_image() {
    settings::largest_image(&Twin);
}

#[test]
fn middle_and_newest() {
    retires::middle_and_newest(&Twin);
}

#[test]
fn one_after_the_other() {
    retires::one_after_the_other(&Twin);
}

#[test]
fn counts_of_two() {
    retires::counts_of_two(&Twin);
}

#[test]
fn backup_after_the_newest() {
    retires::backup_after_the_newest(&Twin);
}

#[test]
fn neighbours_that_were_none() {
    retires::neighbours_that_were_none(&Twin);
}

#[test]
fn given_or_never() {
    lookups::given_or_never(&Twin);
}

#[test]
fn numbers_used_up() {
    lookups::numbers_used_up(&Twin);
}

#[test]
fn nothing_stored() {
    blanks::nothing_stored(&Twin);
}

#[test]
fn beside_others() {
    blanks::beside_others(&Twin);
}

#[test]
fn short_last_block() {
    blanks::short_last_block(&Twin);
}

#[test]
fn blank_soundness() {
    blanks::soundness(&Twin);
}

#[test]
fn store_from_before() {
    blanks::store_from_before(&Twin, earlier);
}

#[test]
fn cells_freed() {
    blanks::cells_freed(&Twin, earlier);
}

#[test]
fn neither_serves_the_other() {
    blanks::neither_serves_the_other(&Twin, earlier);
}

#[test]
fn earlier_after() {
    blanks::earlier_after(&Twin, earlier);
}
