//! Storage billed, put to the twin.

use keeper::bills;
use twin::Twin;

#[test]
fn three_tills() {
    bills::three_tills(&Twin);
}

#[test]
fn all_tills() {
    bills::all_tills(&Twin);
}

#[test]
fn empty() {
    bills::empty(&Twin);
}

#[test]
fn two_references() {
    bills::two_references(&Twin);
}

#[test]
fn a_version_that_went() {
    bills::a_version_that_went(&Twin);
}

#[test]
fn an_older_version() {
    bills::an_older_version(&Twin);
}

#[test]
fn refusals() {
    bills::refusals(&Twin);
}
