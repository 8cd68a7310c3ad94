//! Versions by their day, each case worked out by hand from the pages.

use crate::trial::{letters, Trial};
use terms::{fingerprint, Backup, Calls, Capacities, Collected, Sending, OWNER};

/// Lookups by day on till 0, each with what it is answered.
fn found(one: &Trial, lookups: &[(u32, [u32; 2])]) {
    lookups.iter().for_each(|&(day, answer)| assert_eq!(one.version_on(day), answer, "day {day}"));
}

/// A backup that is refused for its day alters nothing.
fn too_early(one: &mut Trial, days: &[u32]) {
    let before = (one.pool.clone(), one.table.clone());
    days.iter().for_each(|&day| assert_eq!(one.file_on(day, "ABCDEFGX"), [28, 0], "day {day}"));
    assert!(before == (one.pool.clone(), one.table.clone()), "altered though refused");
}

/// Days that rise, and one that comes twice. The store is that of plain backups but for the days.
pub fn by_the_day(store: &dyn Calls) {
    let (mut one, mut plain) = (Trial::of_page(store, 32), Trial::of_page(store, 32));
    found(&one, &[(0, [29, 0]), (5, [29, 0]), (u32::MAX, [29, 0])]);
    assert_eq!(one.file_on(5, "ABCDEFGH"), [0, 1]);
    found(&one, &[(0, [29, 0]), (4, [29, 0]), (5, [0, 1]), (6, [0, 1]), (u32::MAX, [0, 1])]);
    assert_eq!(one.file_on(5, "ABCDEFGZ"), [0, 2]);
    found(&one, &[(4, [29, 0]), (5, [0, 2]), (6, [0, 2])]);
    too_early(&mut one, &[0, 1, 4]);
    assert_eq!(one.file_on(9, "ABCDEFGH"), [0, 3]);
    found(&one, &[(4, [29, 0]), (5, [0, 2]), (8, [0, 2]), (9, [0, 3]), (10, [0, 3])]);
    too_early(&mut one, &[0, 5, 8]);
    assert_eq!((one.days(), one.tally()), (vec![5, 5, 9, 0], [0, 10, 3, 10]));
    assert_eq!((one.shown(1), one.shown(2)), (("ABCDEFGH".into(), 2), ("ABCDEFGZ".into(), 1)));
    ["ABCDEFGH", "ABCDEFGZ", "ABCDEFGH"].iter().for_each(|text| assert_eq!(plain.file(text)[0], 0));
    [14, 33, 52].iter().for_each(|&at| one.table[at] = 0);
    assert!(one.pool == plain.pool && one.table == plain.table, "another store than that of plain backups");
}

/// A second message of which all segments follow, to a till.
fn send(store: &dyn Calls, one: &mut Trial, till: u32, text: &str) -> [u32; 2] {
    let sending = Sending::whole(&letters(text, 64), 512, |segment| fingerprint(store.sha1(segment)));
    store.backup_sent(&mut one.pool, &mut one.table, OWNER, till, sending.message())
}

/// A closing of these tills, an image of a letter for each: the versions.
fn close(store: &dyn Calls, one: &mut Trial, tills: &[u32]) -> Vec<u32> {
    let image = [b'c'; 64];
    let collected = Collected::of(tills.iter().map(|&till| (till, &image[..])));
    let answer = store.backup_all(&mut one.pool, &mut one.table, OWNER, collected.closing());
    assert_eq!(answer[..=tills.len()], vec![0; 1 + tills.len()]);
    answer[17..][..tills.len()].to_vec()
}

/// Backups of every kind without a day: they take that of the till's newest held version, or 0 if none is held.
pub fn without_a_day(store: &dyn Calls) {
    let mut one = Trial::new(store, Capacities::new(2, 8, 16, 20, 64));
    assert_eq!((one.file("A"), send(store, &mut one, 0, "B"), close(store, &mut one, &[0])), ([0, 1], [0, 2], vec![3]));
    assert_eq!((one.days(), one.version_on(0)), (vec![0; 8], [0, 3]));
    assert_eq!((one.file_on(7, "D"), one.file("E"), send(store, &mut one, 0, "F")), ([0, 4], [0, 5], [0, 6]));
    assert_eq!(close(store, &mut one, &[0, 1, 0]), [7, 1, 8]);
    assert_eq!(one.days(), [0, 0, 0, 7, 7, 7, 7, 7]);
    found(&one, &[(0, [0, 3]), (6, [0, 3]), (7, [0, 8]), (8, [0, 8])]);
    // Till 1 has a day of its own.
    assert_eq!(store.version_on(&one.pool, &one.table, OWNER, 1, 0), [0, 1]);
    // With nothing held there is no day to take, whatever days there were.
    (1..=8).for_each(|version| assert_eq!(one.retire(version)[0], 0));
    found(&one, &[(0, [29, 0]), (7, [29, 0]), (u32::MAX, [29, 0])]);
    assert_eq!((one.file("A"), one.days()), ([0, 9], vec![0; 8]));
}

/// The newest goes: its older neighbour has the day to take and to beat. Slots that move down take their days along.
pub fn newest_that_went(store: &dyn Calls) {
    let mut one = Trial::of_page(store, 32);
    [(3, "A"), (6, "B"), (9, "C")].iter().for_each(|&(day, text)| assert_eq!(one.file_on(day, text)[0], 0));
    too_early(&mut one, &[6, 8]);
    assert_eq!((one.retire(3), one.days()), ([0, 64], vec![3, 6, 0, 0]));
    found(&one, &[(2, [29, 0]), (5, [0, 1]), (8, [0, 2]), (9, [0, 2])]);
    too_early(&mut one, &[0, 5]);
    assert_eq!((one.file_on(6, "D"), one.file("E"), one.days()), ([0, 4], [0, 5], vec![3, 6, 6, 6]));
    assert_eq!((one.retire(2), one.retire(1), one.days()), ([0, 64], [0, 64], vec![6, 6, 0, 0]));
    found(&one, &[(5, [29, 0]), (6, [0, 5])]);
    assert_eq!((one.retire(5), one.retire(4), one.days()), ([0, 64], [0, 64], vec![0; 4]));
    // Nothing is held, so that no day is too early.
    assert_eq!((one.file_on(0, "F"), one.version_on(0)), ([0, 6], [0, 6]));
}

/// The least and the largest day, and those on both sides of half: a day has no sign.
pub fn ends(store: &dyn Calls) {
    let (half, most) = (1 << 31, u32::MAX);
    let mut one = Trial::new(store, Capacities::new(1, 8, 16, 8, 32));
    for (day, number) in [0, half - 1, half, most - 1, most, most].into_iter().zip(1..) {
        assert_eq!(one.file_on(day, "A"), [0, number], "day {day}");
    }
    found(&one, &[(0, [0, 1]), (1, [0, 1]), (half - 1, [0, 2]), (half, [0, 3]), (half + 1, [0, 3])]);
    found(&one, &[(most - 2, [0, 3]), (most - 1, [0, 4]), (most, [0, 6])]);
    too_early(&mut one, &[0, half, most - 1]);
    assert_eq!((one.file("A"), one.version_on(most)), ([0, 7], [0, 7]));
}

/// A store from before there were days goes on. All its versions have day 0.
pub fn from_before(store: &dyn Calls, earlier: Backup) {
    let mut one = Trial::of_page(store, 32);
    assert_eq!((one.file_by(earlier, 0, "A#"), one.file_by(earlier, 0, "B")), ([0, 1], [0, 2]));
    assert_eq!(one.days(), [0; 4]);
    found(&one, &[(0, [0, 2]), (1, [0, 2]), (u32::MAX, [0, 2])]);
    assert_eq!((one.file_on(4, "C"), one.days()), ([0, 3], vec![0, 0, 4, 0]));
    found(&one, &[(0, [0, 2]), (3, [0, 2]), (4, [0, 3])]);
    assert_eq!((one.shown(1), one.shown(2)), (("A#".into(), 0), ("B".into(), 0)));
}

/// Any days are sound in slots that are in use, also such as no list of calls leaves. The newest version's alone is to
/// be beaten, and lookup gives the highest number that is not after the day.
pub fn days_that_fall(store: &dyn Calls) {
    let mut one = Trial::of_page(store, 32);
    ["A", "B", "C"].iter().for_each(|text| assert_eq!(one.file(text)[0], 0));
    [(14, 8), (33, u32::MAX), (52, 2)].iter().for_each(|&(at, day)| one.table[at] = day);
    assert_eq!(one.days(), [8, u32::MAX, 2, 0]);
    found(&one, &[(0, [29, 0]), (1, [29, 0]), (2, [0, 3]), (9, [0, 3]), (u32::MAX, [0, 3])]);
    too_early(&mut one, &[0, 1]);
    let mut other = one.clone();
    assert_eq!((other.file_on(2, "D"), other.days()), ([0, 4], vec![8, u32::MAX, 2, 2]));
    assert_eq!((one.retire(3), one.shown(2)), ([0, 64], ("B".into(), 0)));
    found(&one, &[(7, [29, 0]), (8, [0, 1]), (u32::MAX - 1, [0, 1]), (u32::MAX, [0, 2])]);
    too_early(&mut one, &[0, 8, u32::MAX - 1]);
    assert_eq!((one.retire(2), one.file_on(8, "D"), one.days()), ([0, 64], [0, 4], vec![8, 8, 0, 0]));
    // The day of a slot that is not in use.
    one.table[52] = 1;
    assert_eq!((one.version_on(8), one.file_on(8, "E"), one.listing()), ([10, 0], [10, 0], [10, 0, 0, 0]));
}

/// A till's days are its own.
pub fn tills_apart(store: &dyn Calls) {
    let mut one = Trial::new(store, Capacities::new(2, 4, 16, 8, 32));
    let image = letters("A", 64);
    let dated =
        |one: &mut Trial, till, day| store.backup_dated(&mut one.pool, &mut one.table, OWNER, till, day, &image);
    assert_eq!((dated(&mut one, 0, 9), dated(&mut one, 1, 2), dated(&mut one, 1, 1)), ([0, 1], [0, 1], [28, 0]));
    assert_eq!((dated(&mut one, 0, 8), dated(&mut one, 1, 8), dated(&mut one, 2, 8)), ([28, 0], [0, 2], [3, 0]));
    let on = |till, day| store.version_on(&one.pool, &one.table, OWNER, till, day);
    assert_eq!((on(0, 8), on(1, 8), on(1, 7), on(1, 1), on(2, 8)), ([29, 0], [0, 2], [0, 1], [29, 0], [3, 0]));
}
