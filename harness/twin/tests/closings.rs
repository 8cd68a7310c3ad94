//! All tills at closing, put to the twin.

use keeper::together;
use twin::Twin;

#[test]
fn in_their_order() {
    together::in_their_order(&Twin);
}

#[test]
fn refused_between() {
    together::refused_between(&Twin);
}

#[test]
fn no_room() {
    together::no_room(&Twin);
}

#[test]
fn room_that_comes() {
    together::room_that_comes(&Twin);
}

#[test]
fn none_and_most() {
    together::none_and_most(&Twin);
}

#[test]
fn refused_whole() {
    together::refused_whole(&Twin);
}
