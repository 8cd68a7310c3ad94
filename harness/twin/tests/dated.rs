//! Versions by their day, put to the twin.

use keeper::dated;
use twin::{earlier, Twin};

#[test]
fn by_the_day() {
    dated::by_the_day(&Twin);
}

#[test]
fn without_a_day() {
    dated::without_a_day(&Twin);
}

#[test]
fn newest_that_went() {
    dated::newest_that_went(&Twin);
}

#[test]
fn ends() {
    dated::ends(&Twin);
}

#[test]
fn from_before() {
    dated::from_before(&Twin, earlier);
}

#[test]
fn days_that_fall() {
    dated::days_that_fall(&Twin);
}

#[test]
fn tills_apart() {
    dated::tills_apart(&Twin);
}
