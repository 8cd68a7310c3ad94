//! Retiring any version, each case with its numbers worked out by hand from the pages.

use crate::trial::Trial;
use terms::Calls;

/// Pointer words of positions of a record, rising from this one.
fn direct(record: u32, first: u32, count: u32) -> Vec<u32> {
    (first..first + count).map(|position| (1 << 24) + 16 * record + position).collect()
}

/// Pointer words to blocks of the next newer version, rising from this one.
fn indirect(first: u32, count: u32) -> Vec<u32> {
    (first..first + count).map(|block| (2 << 24) + block).collect()
}

/// The page's store after its cases 1 to 4.
fn after_four(store: &dyn Calls) -> Trial<'_> {
    let mut one = Trial::of_page(store, 32);
    for (text, number) in ["ABCDEFGH", "ABCDEFGZ", "ABCDEFGH", "ABCDEFGH"].into_iter().zip(1..) {
        assert_eq!(one.file(text), [0, number]);
    }
    one
}

/// Case 6 as changed, and what follows: version 2 takes over indirect pointers, then direct ones.
pub fn middle_and_newest(store: &dyn Calls) {
    let mut one = after_four(store);
    let before = one.table[88..].to_vec();
    assert_eq!(one.retire(3), [0, 512]);
    assert_eq!((one.tally(), one.listing()), ([0, 10, 3, 10], [0, 1, 4, 4]));
    assert_eq!(one.table[88..], before, "no record is touched");
    assert_eq!(one.pointers(1, 8), [indirect(0, 7), direct(1, 7, 1)].concat());
    assert_eq!((one.table[8], one.table[9], one.table[12], one.table[31], one.table[50]), (4, 3, 1, 2, 4));
    assert_eq!(one.table[69..88], [0; 19], "the last slot is blank");
    for (version, shown) in [(1, ("ABCDEFGH", 2)), (2, ("ABCDEFGZ", 1)), (4, ("ABCDEFGH", 0))] {
        assert_eq!(one.shown(version), (shown.0.into(), shown.1));
    }
    assert_eq!((one.retire(3), one.restore(3, &mut [0; 512])), ([18, 0], [18, 0, 0]));

    // The newest goes: H of record 2 has no pointer left.
    assert_eq!(one.retire(4), [0, 512]);
    assert_eq!((one.tally(), one.picture()), ([0, 9, 3, 9], "ABCDEFG.........HZ".into()));
    assert_eq!(one.listing(), [0, 1, 2, 4]);
    assert_eq!(one.pointers(1, 8), [direct(2, 0, 7), direct(1, 7, 1)].concat());
    assert_eq!(one.record(2), (127, 128, &[0, 1, 2, 3, 4, 5, 6, 0][..], &[1, 1, 1, 1, 1, 1, 1, 0][..]));
    assert_eq!((one.shown(1), one.shown(2)), (("ABCDEFGH".into(), 1), ("ABCDEFGZ".into(), 0)));
}

/// All versions from the newest down, then from the oldest up.
pub fn one_after_the_other(store: &dyn Calls) {
    let mut one = after_four(store);
    let steps = [
        (4, [0, 10, 3, 10], [0, 1, 3, 4]),
        (3, [0, 9, 3, 9], [0, 1, 2, 4]),
        (2, [0, 8, 2, 8], [0, 1, 1, 4]),
        (1, [0, 0, 0, 0], [0, 0, 0, 4]),
    ];
    for (version, tally, listing) in steps {
        assert_eq!(one.retire(version), [0, 512]);
        assert_eq!((one.tally(), one.listing()), (tally, listing), "after {version}");
        (1..version).for_each(|held| assert_eq!(one.shown(held).0.len(), 8));
        assert_eq!((one.retire(version), one.retire(5)), ([18, 0], [17, 0]));
    }
    assert_eq!((one.picture(), one.file("A"), one.listing()), ("".into(), [0, 5], [0, 5, 5, 5]));

    let mut one = after_four(store);
    for (version, cells) in [(1, 9), (2, 8), (3, 8), (4, 0)] {
        assert_eq!((one.retire(version), one.tally()[1]), ([0, 512], cells));
    }
    assert_eq!(one.listing(), [0, 0, 0, 4]);
}

/// A direct pointer that is taken over twice, and one that had a count of 2 before.
pub fn counts_of_two(store: &dyn Calls) {
    // Both blocks A of version 1 named block 0 of version 2.
    let mut one = Trial::of_page(store, 32);
    one.file("AACDEFGH");
    assert_eq!(one.file("ABCDEFGH"), [0, 2]);
    assert_eq!((one.tally(), one.picture()), ([0, 8, 1, 8], "........ABCDEFGH".into()));
    assert_eq!(one.pointers(0, 8), [indirect(0, 1), indirect(0, 1), indirect(2, 6)].concat());
    assert_eq!(one.retire(2), [0, 512]);
    assert_eq!((one.tally(), one.picture()), ([0, 7, 1, 8], "........A.CDEFGH".into()));
    assert_eq!(one.record(1).3, [2, 0, 1, 1, 1, 1, 1, 1]);
    assert_eq!((one.listing(), one.shown(1)), ([0, 1, 1, 2], ("AACDEFGH".into(), 0)));

    // Both segments of version 2 use record 0, so that its counts are 2 before anything is taken over.
    let mut one = Trial::of_page(store, 32);
    one.file("ABCDEFGH");
    assert_eq!((one.file("ABCDEFGHABCDEFGH"), one.record(0).3), ([0, 2], &[2; 8][..]));
    assert_eq!(one.retire(2), [0, 1_024]);
    assert_eq!((one.tally(), one.record(0).3), ([0, 8, 1, 8], &[1; 8][..]));
    assert_eq!((one.pointers(0, 8), one.shown(1)), (&direct(0, 0, 8)[..], ("ABCDEFGH".into(), 0)));
}

/// A backup after the newest went: the newest held version is its neighbour, and the number goes on.
pub fn backup_after_the_newest(store: &dyn Calls) {
    let mut one = Trial::of_page(store, 32);
    one.file("ABCDEFGH");
    one.file("ABCDEFGZ");
    assert_eq!(one.retire(2), [0, 512]);
    assert_eq!((one.tally(), one.picture()), ([0, 8, 2, 8], "........ABCDEFG.H".into()));
    assert_eq!(one.pointers(0, 8), [direct(1, 0, 7), direct(0, 7, 1)].concat());
    // Neither record is whole, so that a third one is taken; both others then have nothing left.
    assert_eq!((one.file("ABCDEFGH"), one.listing()), ([0, 3], [0, 1, 3, 3]));
    assert_eq!((one.tally(), one.picture()), ([0, 8, 1, 8], "ABCDEFGH".into()));
    assert_eq!((one.pointers(0, 8), one.shown(1)), (&indirect(0, 8)[..], ("ABCDEFGH".into(), 1)));
}

/// After a retire two neighbours need not share what both have: the older was not compared with the newer.
pub fn neighbours_that_were_none(store: &dyn Calls) {
    let mut one = Trial::of_page(store, 32);
    one.file("A");
    one.file("B");
    one.file("A");
    assert_eq!((one.retire(2), one.listing()), ([0, 64], [0, 1, 3, 3]));
    assert_eq!((one.pointers(0, 1), one.pointers(1, 1)), (&direct(0, 0, 1)[..], &direct(0, 0, 1)[..]));
    assert_eq!((one.tally(), one.record(0).3[0]), ([0, 1, 1, 2], 2));
}
