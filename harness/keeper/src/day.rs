//! The page's day at the box, and its other cases, put to one store.

use crate::trial::{letters, Trial};
use terms::{Calls, Capacities, BASE};

/// Cases 1 to 6.
pub fn days_in_a_row(store: &dyn Calls) {
    days_of(store, BASE[0]);
}

/// Cases 1 to 6 with blocks of so many bytes: lengths are other ones, and nothing else.
pub fn days_of(store: &dyn Calls, bytes: u32) {
    let mut one = Trial::new(store, Capacities { block_bytes: bytes, ..Capacities::new(1, 4, 16, 8, 32) });
    assert_eq!(one.file("ABCDEFGH"), [0, 1]);
    assert_eq!(one.record(0), (255, 0, &[0, 1, 2, 3, 4, 5, 6, 7][..], &[1; 8][..]));
    assert_eq!((one.tally(), one.picture()), ([0, 8, 1, 8], "ABCDEFGH".into()));
    assert_eq!(one.file("ABCDEFGZ"), [0, 2]);
    assert_eq!((one.tally(), one.picture()), ([0, 9, 2, 9], "........ABCDEFGZH".into()));
    assert_eq!(one.table, worked_example(bytes));
    assert_eq!(one.file("ABCDEFGH"), [0, 3]);
    assert_eq!((one.tally(), one.picture()), ([0, 10, 3, 10], "ABCDEFGH........HZ".into()));
    let before = one.table.clone();
    assert_eq!(one.file("ABCDEFGH"), [0, 4]);
    assert_eq!((one.tally(), one.record(2).3), ([0, 10, 3, 10], &[1; 8][..]));
    assert_eq!(one.table[88..], before[88..]);
    assert_eq!(one.file("A"), [11, 0]);
    let mut output = vec![0; 8 * bytes as usize];
    assert_eq!(one.restore(1, &mut output), [0, 8 * bytes, 3]);
    assert_eq!(output, letters("ABCDEFGH", bytes));
    let mut other = one.clone();
    assert_eq!(one.retire(1), [0, 8 * bytes]);
    assert_eq!((one.tally(), one.picture()), ([0, 9, 2, 9], "ABCDEFGH.........Z".into()));
    assert_eq!(one.listing(), [0, 2, 4, 4]);
    assert_eq!(other.retire(3), [0, 8 * bytes]);
    assert_eq!((other.tally(), other.picture()), ([0, 10, 3, 10], "ABCDEFGH........HZ".into()));
    assert_eq!(other.listing(), [0, 1, 4, 4]);
}

/// The table of docs/FORMAT.md's example, with blocks of so many bytes.
fn worked_example(bytes: u32) -> Vec<u32> {
    let mut words = vec![0; 240];
    words[..5].copy_from_slice(&[1, 4, 16, 8, 32]);
    if bytes != 64 {
        words[5..8].copy_from_slice(&[bytes, 8, 20]);
    }
    words[8..10].copy_from_slice(&[2, 2]);
    words[12..14].copy_from_slice(&[1, 8 * bytes]);
    (0..7).for_each(|n| words[15 + n] = 33_554_432 + n as u32);
    words[22] = 16_777_223;
    words[31..33].copy_from_slice(&[2, 8 * bytes]);
    (0..8).for_each(|n| words[34 + n] = 16_777_232 + n as u32);
    words[88..90].copy_from_slice(&[128, 127]);
    (words[98], words[106]) = (16, 1);
    words[107] = 255;
    (0..8).for_each(|n| (words[110 + n], words[118 + n]) = (8 + n as u32, 1));
    words
}

/// Cases 7 to 10.
pub fn fresh_stores(store: &dyn Calls) {
    let mut one = Trial::of_page(store, 32);
    assert_eq!((one.backup(&[0; 512]), one.tally()), ([0, 1], [0, 0, 0, 0]));

    let mut one = Trial::of_page(store, 32);
    assert_eq!((one.file("ABCDEFGHABCDEFGH"), one.tally()), ([0, 1], [0, 8, 1, 16]));
    assert_eq!(one.record(0).3, [2; 8]);

    let mut one = Trial::of_page(store, 32);
    one.file("ABCDEFGH");
    assert_eq!(one.file("AIJKLMNO"), [0, 2]);
    assert_eq!((one.tally()[1], one.picture()), (15, ".BCDEFGHAIJKLMNO".into()));

    let mut one = Trial::of_page(store, 32);
    one.file("ABCDEFGH");
    assert_eq!(one.file("ABIJKLMN"), [0, 2]);
    assert_eq!((one.tally()[1], one.picture()), (14, "........ABIJKLMNCDEFGH".into()));

    let mut one = Trial::of_page(store, 16);
    one.file("ABCDEFGH");
    assert_eq!(one.file("ABIJKLMN"), [0, 2]);
    assert_eq!((one.tally()[1], one.picture()), (14, "..CDEFGHABIJKLMN".into()));

    let mut one = Trial::of_page(store, 15);
    one.file("ABCDEFGH");
    let before = (one.pool.clone(), one.table.clone());
    assert_eq!(one.file("ABIJKLMN"), [16, 0]);
    assert!(before == (one.pool, one.table));
}

/// Case 11, the unstarred one.
pub fn lengths(store: &dyn Calls) {
    let mut one = Trial::of_page(store, 32);
    let short = &letters("ABCDEFGH", 64)[..500];
    assert_eq!(one.backup(short), [0, 1]);
    assert_eq!((one.tally(), one.table[13]), ([0, 8, 1, 8], 500));
    assert_eq!(one.pool[448..512], [[b'H'; 52].as_slice(), &[0; 12]].concat());
    let mut output = [3; 512];
    assert_eq!(one.restore(1, &mut output), [0, 500, 0]);
    assert!(output[..500] == *short && output[500..] == [3; 12]);
    assert_eq!(one.backup(&[]), [4, 0]);
    assert_eq!(one.file("ABCDEFGHIJKLMNOP"), [0, 2]);
    assert_eq!(one.backup(&[1; 1_025]), [4, 0]);

    let mut one = Trial::of_page(store, 32);
    one.file("ABCDEFGH");
    let mut output = [3; 511];
    assert_eq!(one.restore(1, &mut output), [5, 0, 0]);
    assert_eq!(output, [3; 511]);
}
