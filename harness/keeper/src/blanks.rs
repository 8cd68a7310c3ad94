//! Blank blocks, each case with its numbers worked out by hand from the pages. `earlier` makes the backups from before
//! blank blocks were known.

use crate::trial::{letters, Trial};
use terms::{Backup, Calls, Capacities};

const BLANK: u32 = 3 << 24;

/// The pointer word of a position of a record.
fn direct(record: u32, position: u32) -> u32 {
    (1 << 24) + 16 * record + position
}

/// The pointer word to a block of the next newer version.
fn indirect(block: u32) -> u32 {
    (2 << 24) + block
}

/// Counts or cells of a record's first positions, the others 0.
fn first<const N: usize>(numbers: [u32; N]) -> Vec<u32> {
    [&numbers[..], &[0; 8][N..]].concat()
}

/// Blank and null blocks alone take no cell and no record, and are not made indirect.
pub fn nothing_stored(store: &dyn Calls) {
    let mut one = Trial::of_page(store, 32);
    assert_eq!((one.file("########"), one.tally()), ([0, 1], [0; 4]));
    assert_eq!((one.file("#.#"), one.tally(), one.picture()), ([0, 2], [0; 4], "".into()));
    assert_eq!(one.pointers(0, 9), [&[BLANK; 8][..], &[0]].concat());
    assert_eq!(one.pointers(1, 4), [BLANK, 0, BLANK, 0]);
    assert!(one.table[one.records_at()..].iter().all(|&word| word == 0));
    assert_eq!((one.shown(1), one.shown(2)), (("########".into(), 0), ("#.#".into(), 0)));
    assert_eq!((one.retire(1), one.retire(2), one.tally()), ([0, 512], [0, 192], [0; 4]));
}

/// Held, null and blank in one segment: it serves an equal one, and none with null and blank exchanged.
pub fn beside_others(store: &dyn Calls) {
    let mut one = Trial::of_page(store, 32);
    assert_eq!(one.file("A.#B.#..A.#B.#"), [0, 1]);
    assert_eq!((one.tally(), one.picture()), ([0, 2, 1, 4], "AB".into()));
    assert_eq!(one.record(0), (0b1001, 0, &first([0, 0, 0, 1])[..], &first([2, 0, 0, 2])[..]));
    assert_eq!(one.blanks(0), 0b100100);
    assert_eq!(one.pointers(0, 6), [direct(0, 0), 0, BLANK, direct(0, 3), 0, BLANK]);
    // A and B of version 1 turn indirect and nothing of record 0 is left; the blank ones stay as they are.
    assert_eq!((one.file("A#.B.#"), one.tally()), ([0, 2], [0, 2, 1, 2]));
    assert_eq!((one.blanks(0), one.blanks(1), one.record(1).0), (0, 0b100010, 0b1001));
    assert_eq!(one.pointers(0, 6), [indirect(0), 0, BLANK, indirect(3), 0, BLANK]);
    assert_eq!(one.pointers(1, 6), [direct(1, 0), BLANK, 0, direct(1, 3), 0, BLANK]);
    assert_eq!((one.shown(1), one.shown(2)), (("A.#B.#..A.#B.#".into(), 1), ("A#.B.#".into(), 0)));
    // The same again is served by record 1.
    assert_eq!((one.file("A#.B.#"), one.tally()), ([0, 3], [0, 2, 1, 2]));
    // B goes, so that the record is not whole, and its blank positions stay.
    assert_eq!((one.file("A"), one.tally()), ([0, 4], [0, 2, 2, 2]));
    assert_eq!((one.record(1).0, one.record(1).1, one.blanks(1)), (0b1000, 1, 0b100010));
    assert_eq!(one.shown(1), ("A.#B.#..A.#B.#".into(), 3));
}

/// A last block of 255s that is short is filled up with zeros, and so not blank; a whole one is.
pub fn short_last_block(store: &dyn Calls) {
    let mut one = Trial::of_page(store, 32);
    assert_eq!((one.backup(&[255; 70]), one.tally()), ([0, 1], [0, 1, 1, 1]));
    assert_eq!(one.pointers(0, 2), [BLANK, direct(0, 1)]);
    assert_eq!((one.record(0).0, one.blanks(0)), (2, 1));
    assert_eq!(one.pool[..64], [[255; 6].as_slice(), &[0; 58]].concat());
    let mut output = [3; 72];
    assert_eq!(one.restore(1, &mut output), [0, 70, 0]);
    assert_eq!(output, *[[255; 70].as_slice(), &[3; 2]].concat());
    assert_eq!((one.backup(&[255; 127]), one.tally()), ([0, 2], [0, 2, 2, 2]));
    assert_eq!((one.backup(&[255; 128]), one.tally()), ([0, 3], [0, 2, 2, 2]));
    assert_eq!(one.pointers(2, 2), [BLANK; 2]);

    let mut one = Trial::new(store, Capacities::new(1, 2, 4, 4, 4).measured([512, 4, 20]));
    assert_eq!((one.backup(&[255; 511]), one.tally()), ([0, 1], [0, 1, 1, 1]));
    assert_eq!((one.backup(&[255; 512]), one.tally()), ([0, 2], [0, 1, 1, 1]));
    assert_eq!((one.pointers(0, 1), one.pointers(1, 1)), (&[direct(0, 0)][..], &[BLANK][..]));
}

/// A store from before has cells of 255s. The till's next backup frees those of its previous version, though the new
/// image has no such block; older versions then have indirect pointers that name a blank one, and take it over.
pub fn store_from_before(store: &dyn Calls, earlier: Backup) {
    let mut one = Trial::of_page(store, 16);
    assert_eq!((one.file_by(earlier, 0, "A##."), one.tally()), ([0, 1], [0, 3, 1, 3]));
    assert_eq!((one.record(0), one.picture()), ((7, 0, &first([0, 1, 2])[..], &first([1, 1, 1])[..]), "A##".into()));
    // By the earlier rule both of them turn indirect.
    assert_eq!((one.file_by(earlier, 0, "#A"), one.tally()), ([0, 2], [0, 2, 1, 2]));
    assert_eq!(one.pointers(0, 4), [indirect(1), indirect(0), indirect(0), 0]);
    assert_eq!((one.pointers(1, 2), one.picture()), (&[direct(1, 0), direct(1, 1)][..], "...#A".into()));

    // The first backup that knows blank blocks: record 0 takes cells 0 and 1, and nothing of record 1 is left.
    assert_eq!((one.file("AB"), one.tally()), ([0, 3], [0, 2, 1, 2]));
    assert_eq!(one.pointers(0, 4), [indirect(1), indirect(0), indirect(0), 0]);
    assert_eq!((one.pointers(1, 2), one.picture()), (&[BLANK, indirect(0)][..], "AB".into()));
    assert_eq!((one.shown(1), one.shown(2), one.shown(3)), (("A##.".into(), 2), ("#A".into(), 1), ("AB".into(), 0)));

    // The one after it: B turns indirect, A keeps its place, and record 0 has lost half.
    assert_eq!((one.file("#B"), one.tally()), ([0, 4], [0, 2, 2, 2]));
    assert_eq!(one.pointers(2, 2), [direct(0, 0), indirect(1)]);
    assert_eq!((one.pointers(3, 2), one.blanks(1)), (&[BLANK, direct(1, 1)][..], 1));
    assert_eq!((one.shown(1), one.shown(2), one.shown(4)), (("A##.".into(), 2), ("#A".into(), 1), ("#B".into(), 0)));

    // Version 1 takes over what version 2 had: an indirect pointer and a blank one, twice.
    assert_eq!((one.retire(2), one.tally()), ([0, 128], [0, 2, 2, 2]));
    assert_eq!(one.pointers(0, 4), [indirect(0), BLANK, BLANK, 0]);
    assert_eq!(one.shown(1), ("A##.".into(), 1));
}

/// Cells that are freed as the pointers to them turn blank: few of a record are cleared, of many the others are copied
/// together.
pub fn cells_freed(store: &dyn Calls, earlier: Backup) {
    let mut one = Trial::of_page(store, 32);
    assert_eq!((one.file_by(earlier, 0, "ABCDEFG#"), one.tally()), ([0, 1], [0, 8, 1, 8]));
    // 5 × 1 < 8.
    assert_eq!((one.file("X"), one.tally(), one.picture()), ([0, 2], [0, 8, 2, 8], "ABCDEFG.X".into()));
    assert_eq!((one.record(0).0, one.record(0).1, one.blanks(0)), (127, 128, 0));
    assert_eq!((one.pointers(0, 8)[7], one.shown(1)), (BLANK, ("ABCDEFG#".into(), 0)));

    let mut one = Trial::of_page(store, 32);
    one.file_by(earlier, 0, "ABCDEF##");
    // 5 × 2 ≥ 8.
    assert_eq!((one.file("X"), one.tally(), one.picture()), ([0, 2], [0, 7, 2, 7], "........XABCDEF".into()));
    assert_eq!(one.shown(1), ("ABCDEF##".into(), 0));

    // All of them: the record is free.
    let mut one = Trial::of_page(store, 32);
    one.file_by(earlier, 0, "########");
    assert_eq!((one.tally(), one.picture()), ([0, 8, 1, 8], "########".into()));
    assert_eq!((one.file("########"), one.tally(), one.picture()), ([0, 2], [0; 4], "".into()));
    assert_eq!((one.pointers(0, 8), one.shown(1)), (&[BLANK; 8][..], ("########".into(), 0)));
}

/// A record with a cell of 255s serves earlier backups alone, and one with a blank position only those that know blank
/// blocks. A till's cells stay until its own next backup.
pub fn neither_serves_the_other(store: &dyn Calls, earlier: Backup) {
    let mut one = Trial::new(store, Capacities::new(2, 4, 8, 8, 16));
    assert_eq!(one.file_by(earlier, 0, "A#"), [0, 1]);
    let image = letters("A#", 64);
    assert_eq!((one.backup_of(1, &image), one.tally()), ([0, 1], [0, 3, 2, 3]));
    assert_eq!((one.backup_of(1, &image), one.tally()), ([0, 2], [0, 3, 2, 3]));
    assert_eq!((one.record(0).0, one.record(0).3), (3, &first([1, 1])[..]));
    assert_eq!((one.record(1).0, one.blanks(1), one.record(1).3), (1, 2, &first([1])[..]));
    assert_eq!(one.picture(), "A#A");

    // An earlier backup of till 1: record 0 serves it, and A of version 2 turns indirect, so that record 1 is free.
    assert_eq!((one.file_by(earlier, 1, "A#"), one.tally()), ([0, 3], [0, 2, 1, 4]));
    assert_eq!((one.record(0).3, one.blanks(1), one.picture()), (&first([2, 2])[..], 0, "A#".into()));
    // One of till 0 that knows them: record 0 does not serve it, and till 0 lets go of both its positions.
    assert_eq!((one.backup_of(0, &image), one.tally()), ([0, 2], [0, 3, 2, 3]));
    assert_eq!((one.record(0).3, one.record(1).0, one.blanks(1)), (&first([1, 1])[..], 1, 2));
    assert_eq!((one.pointers(0, 2), one.pointers(1, 2)), (&[indirect(0), BLANK][..], &[direct(1, 0), BLANK][..]));
    // Then the next of till 1: nothing of record 0 is left.
    assert_eq!((one.backup_of(1, &image), one.tally(), one.picture()), ([0, 4], [0, 1, 1, 2], "..A".into()));
}

/// An earlier backup after one that knows blank blocks stores 255s as it did, and leaves blank pointers alone.
pub fn earlier_after(store: &dyn Calls, earlier: Backup) {
    let mut one = Trial::of_page(store, 16);
    assert_eq!((one.file("A#"), one.tally()), ([0, 1], [0, 1, 1, 1]));
    assert_eq!((one.file_by(earlier, 0, "#A"), one.tally(), one.picture()), ([0, 2], [0, 2, 1, 2], ".#A".into()));
    assert_eq!(
        (one.pointers(0, 2), one.pointers(1, 2)),
        (&[indirect(1), BLANK][..], &[direct(1, 0), direct(1, 1)][..])
    );
    assert_eq!((one.shown(1), one.shown(2)), (("A#".into(), 1), ("#A".into(), 0)));
    assert_eq!((one.file("#A"), one.tally()), ([0, 3], [0, 1, 1, 1]));
    assert_eq!((one.pointers(1, 2), one.pointers(2, 2)), (&[BLANK, indirect(1)][..], &[BLANK, direct(0, 1)][..]));
    assert_eq!((one.shown(1), one.shown(2), one.shown(3)), (("A#".into(), 2), ("#A".into(), 1), ("#A".into(), 0)));
}

/// What is sound of blank pointers and positions, in the page's store with an image of 70 bytes.
pub fn soundness(store: &dyn Calls) {
    let mut one = Trial::of_page(store, 16);
    assert_eq!(one.backup(&[[b'A'; 64].as_slice(), &[0; 6]].concat()), [0, 1]);
    let mut put = |at: usize, word: u32| {
        one.table[at] = word;
        one.tally()[0]
    };
    // Words 13, 15 and 16 are the length and the two pointers, words 90 and 109 the blank masks of records 0 and 1.
    assert_eq!(put(16, BLANK), 10, "past the length");
    assert_eq!(put(13, 128), 0, "whole");
    assert_eq!(put(16, BLANK + 1), 10, "with a block number");
    assert_eq!(put(16, 4 << 24), 10, "a fifth kind");
    assert_eq!(put(16, BLANK), 0);
    assert_eq!(put(17, BLANK), 10, "past the last block");
    assert_eq!(put(17, 0), 0);
    assert_eq!(put(15, BLANK), 10, "in the place of one that is counted");
    assert_eq!(put(15, direct(0, 0)), 0);
    assert_eq!(put(90, 1), 10, "a position that is held too");
    assert_eq!(put(90, 2), 0);
    assert_eq!(put(90, 256), 10, "a ninth position");
    assert_eq!(put(90, 254), 0);
    assert_eq!(put(89, 2), 10, "a position that is removed too");
    assert_eq!((put(90, 252), put(89, 0)), (0, 0));
    assert_eq!(put(109, 1), 10, "a record that holds none");
    assert_eq!(put(109, 0), 0);
    assert_eq!(one.shown(1), ("A#".into(), 0));
}
