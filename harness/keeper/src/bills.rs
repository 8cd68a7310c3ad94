//! What a bill has to be, by the table's words, and cases worked out by hand from the page.

use crate::trial::{letters, Trial};
use crate::words::{kind, Kind, Words};
use std::collections::{BTreeMap, BTreeSet};
use terms::{Calls, Capacities, Rights, BLOCK, HIGHEST_PRICE, MOST_TILLS, OWNER, USERS};

/// What each till owes in a sound store. The tenths of each cell are dealt out one by one, round and round from the
/// lowest of its tills, so that there is no remainder to be told apart.
pub fn owed(words: &Words, tills: usize, price: u32) -> [u32; MOST_TILLS] {
    let mut sums = [0; MOST_TILLS];
    for sharing in sharing(words, tills).values() {
        let count = sharing.len() as u32;
        (0..).zip(sharing).for_each(|(nth, &till)| sums[till] += (price + count - 1 - nth) / count);
    }
    sums
}

/// The tills with a direct pointer to each cell.
fn sharing(words: &Words, tills: usize) -> BTreeMap<usize, BTreeSet<usize>> {
    let mut cells: BTreeMap<usize, BTreeSet<usize>> = BTreeMap::new();
    for till in 0..tills {
        let pointers = (0..words.numbers(till).len()).flat_map(|slot| words.pointers(till, slot));
        for &pointer in pointers.filter(|&&pointer| kind(pointer) == Kind::Direct) {
            cells.entry(words.cell(pointer)).or_default().insert(till);
        }
    }
    cells
}

/// A store with its tills' images in letters.
struct Shop<'a> {
    store: &'a dyn Calls,
    trial: Trial<'a>,
}

impl<'a> Shop<'a> {
    fn new(store: &'a dyn Calls, tills: u32) -> Shop<'a> {
        Shop { store, trial: Trial::new(store, Capacities::new(tills, 4, 16, 16, 64)) }
    }

    /// A store in which each of these tills has backed its letters up, in this order.
    fn with(store: &'a dyn Calls, tills: u32, images: &[(u32, &str)]) -> Shop<'a> {
        let mut shop = Shop::new(store, tills);
        images.iter().for_each(|&(till, text)| shop.file(till, text));
        shop
    }

    fn file(&mut self, till: u32, text: &str) {
        assert_eq!(self.trial.backup_of(till, &letters(text, BLOCK as u32))[0], 0, "till {till}, {text}");
    }

    fn retire(&mut self, till: u32, version: u32) {
        let Trial { pool, table, .. } = &mut self.trial;
        assert_eq!(self.store.retire(pool, table, OWNER, till, version)[0], 0, "till {till}, version {version}");
    }

    /// What a user is answered: the refusal, and the sums.
    fn asked(&self, user: u32, price: u32) -> (u32, [u32; MOST_TILLS]) {
        let [refusal, sums @ ..] = self.store.bill(&self.trial.pool, &self.trial.table, user, price);
        (refusal, sums)
    }

    /// The sums of the first tills are these, those of all others 0, and all together the price of the tally's cells.
    fn owe(&self, price: u32, first: &[u32]) {
        let (refusal, sums) = self.asked(OWNER, price);
        let past = vec![0; MOST_TILLS - first.len()];
        assert_eq!((refusal, &sums[..]), (0, &[first, &past].concat()[..]), "at {price}");
        assert_eq!(sums.iter().sum::<u32>(), price * self.trial.tally()[1], "at {price}");
    }

    fn refused(&self, user: u32, price: u32, refusal: u32) {
        assert_eq!(self.asked(user, price), (refusal, [0; MOST_TILLS]), "user {user} at {price}");
    }
}

/// One cell of three tills: the tenths that are left over go to the lowest of these, whoever came first.
pub fn three_tills(store: &dyn Calls) {
    let shop = Shop::with(store, 4, &[(3, "A"), (1, "A"), (2, "A")]);
    assert_eq!(shop.trial.tally(), [0, 1, 1, 3]);
    shop.owe(100, &[0, 34, 33, 33]);
    shop.owe(2, &[0, 1, 1, 0]);
    shop.owe(1, &[0, 1, 0, 0]);
    shop.owe(99, &[0, 33, 33, 33]);
    shop.owe(0, &[]);
    shop.owe(HIGHEST_PRICE, &[0, 3_334, 3_333, 3_333]);
    [HIGHEST_PRICE + 1, u32::MAX].iter().for_each(|&price| shop.refused(OWNER, price, 30));
}

/// A cell of as many tills as there can be.
pub fn all_tills(store: &dyn Calls) {
    let images: Vec<(u32, &str)> = (0..MOST_TILLS as u32).rev().map(|till| (till, "A")).collect();
    let shop = Shop::with(store, MOST_TILLS as u32, &images);
    shop.owe(100, &[[7; 4].as_slice(), &[6; 12]].concat());
    shop.owe(15, &[1; 15]);
    shop.owe(HIGHEST_PRICE, &[625; MOST_TILLS]);
}

/// Nothing is occupied before the first backup, by blocks of zeros and of 255s, and after the last retire.
pub fn empty(store: &dyn Calls) {
    let mut shop = Shop::new(store, 2);
    let nothing = |shop: &Shop| {
        [0, 1, HIGHEST_PRICE].iter().for_each(|&price| shop.owe(price, &[]));
        shop.refused(OWNER, HIGHEST_PRICE + 1, 30);
    };
    nothing(&shop);
    shop.file(0, "........");
    shop.file(1, "#.");
    nothing(&shop);
    shop.file(1, "A");
    shop.owe(7, &[0, 7]);
    shop.retire(1, 2);
    nothing(&shop);
}

/// Two references of one till to a cell are no more than one.
pub fn two_references(store: &dyn Calls) {
    let shop = Shop::with(store, 2, &[(0, "ABCDEFGHABCDEFGH"), (1, "ABCDEFGH")]);
    assert_eq!(shop.trial.tally(), [0, 8, 1, 24]);
    shop.owe(100, &[400, 400]);
    shop.owe(3, &[16, 8]);
}

/// A till whose version has gone pays no longer, and the other one pays for both.
pub fn a_version_that_went(store: &dyn Calls) {
    let mut shop = Shop::with(store, 2, &[(0, "ABCDEFGH"), (1, "ABCDEFGH")]);
    shop.owe(101, &[8 * 51, 8 * 50]);
    let both = shop.trial.clone();
    shop.retire(0, 1);
    shop.owe(101, &[0, 808]);
    shop.trial = both;
    shop.retire(1, 1);
    shop.owe(101, &[808]);
}

/// An older version that leads on to a newer one refers to no cell by that: of the shared segment till 0 keeps the H
/// alone, which its newer version has not.
pub fn an_older_version(store: &dyn Calls) {
    let mut shop = Shop::with(store, 2, &[(0, "ABCDEFGH"), (1, "ABCDEFGH"), (0, "ABCDEFGZ")]);
    assert_eq!(shop.trial.tally()[1], 16);
    shop.owe(101, &[8 * 101 + 51, 7 * 101 + 50]);
    // Once that version goes, the H is till 1's alone.
    shop.retire(0, 1);
    shop.owe(101, &[8 * 101, 8 * 101]);
}

/// 10 comes before 22, this before 23, this before 30; no right makes another user the owner.
pub fn refusals(store: &dyn Calls) {
    let mut shop = Shop::with(store, 2, &[(0, "A"), (1, "AB")]);
    for (till, subject) in (0..2).flat_map(|till| (1..USERS).map(move |subject| (till, subject))) {
        let Trial { pool, table, .. } = &mut shop.trial;
        assert_eq!(store.set_rights(pool, table, OWNER, subject, till, Rights::ALL), [0]);
    }
    for price in [0, 100, HIGHEST_PRICE, HIGHEST_PRICE + 1, u32::MAX] {
        (1..USERS).for_each(|user| shop.refused(user, price, 23));
        [USERS, USERS + 1, u32::MAX].iter().for_each(|&user| shop.refused(user, price, 22));
    }
    shop.refused(OWNER, HIGHEST_PRICE + 1, 30);
    // A byte in a cell that nothing leads to.
    *shop.trial.pool.last_mut().expect("a pool has cells") = 1;
    for user in [OWNER, 1, USERS, u32::MAX] {
        [0, HIGHEST_PRICE, HIGHEST_PRICE + 1].iter().for_each(|&price| shop.refused(user, price, 10));
    }
}
