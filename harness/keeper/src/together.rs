//! All tills at closing, several images in one call, each case worked out by hand from the pages.

use crate::trial::{letters, Trial};
use terms::{Calls, Capacities, Closing, Collected, MOST_IMAGES, OWNER};

/// A box, and the tills that close.
struct Shop<'a> {
    store: &'a dyn Calls,
    trial: Trial<'a>,
}

/// What each image was answered, refusal and version.
type Answers = Vec<[u32; 2]>;

impl<'a> Shop<'a> {
    fn new(store: &'a dyn Calls, capacities: Capacities) -> Shop<'a> {
        Shop { store, trial: Trial::new(store, capacities) }
    }

    /// A closing that is accepted as a whole: what each image was answered. Places past the last one are 0.
    fn close(&mut self, images: &[(u32, Vec<u8>)]) -> Answers {
        let collected = Collected::of(images.iter().map(|(till, image)| (*till, &image[..])));
        let answer = self.store.backup_all(&mut self.trial.pool, &mut self.trial.table, OWNER, collected.closing());
        let (refusals, versions) = answer[1..].split_at(MOST_IMAGES);
        let mut each: Answers = refusals.iter().zip(versions).map(|(&refusal, &version)| [refusal, version]).collect();
        let past = each.split_off(images.len());
        assert_eq!((answer[0], past), (0, vec![[0; 2]; MOST_IMAGES - images.len()]));
        each
    }

    /// The same of letters.
    fn close_of(&mut self, images: &[(u32, &str)]) -> Answers {
        let images: Vec<(u32, Vec<u8>)> = images.iter().map(|&(till, text)| (till, letters(text, 64))).collect();
        self.close(&images)
    }

    /// A closing that is refused as a whole: its number. Every other field is 0, and the store is as it was.
    fn refused(&mut self, closing: Closing) -> u32 {
        let Trial { pool, table, .. } = &mut self.trial;
        let before = (pool.clone(), table.clone());
        let answer = self.store.backup_all(pool, table, OWNER, closing);
        assert!(answer[1..].iter().all(|&field| field == 0), "{answer:?}");
        assert!(before == (pool.clone(), table.clone()), "altered though refused with {}", answer[0]);
        answer[0]
    }

    /// A till's version in letters, and its longest chain.
    fn shown(&self, till: u32, version: u32) -> (String, u32) {
        let mut image = vec![0; 1_024];
        let Trial { pool, table, .. } = &self.trial;
        let [refusal, length, hops] = self.store.restore(pool, table, OWNER, till, version, &mut image);
        assert_eq!(refusal, 0, "till {till}, version {version}");
        (image[..length as usize].chunks(64).map(|block| block[0] as char).collect(), hops)
    }
}

/// Tills in any order, and one of them twice: the second image finds the store as the first has left it.
pub fn in_their_order(store: &dyn Calls) {
    let mut shop = Shop::new(store, Capacities::new(3, 3, 16, 8, 32));
    let day = [(2, "ABCDEFGH"), (0, "ABCDEFGH"), (1, "ABCDEFGZ")];
    assert_eq!(shop.close_of(&day), [[0, 1], [0, 1], [0, 1]]);
    assert_eq!(shop.trial.tally(), [0, 16, 2, 24]);
    assert_eq!(shop.trial.record(0).3, [2; 8]);
    // Version 2 is record 1's, and A to G of version 1 turn to it; version 3 is record 0's again, and those of version 2
    // turn to that.
    assert_eq!(shop.close_of(&[(0, "ABCDEFGZ"), (0, "ABCDEFGH")]), [[0, 2], [0, 3]]);
    assert_eq!(shop.trial.record(0).3, [2, 2, 2, 2, 2, 2, 2, 3]);
    assert_eq!(shop.trial.record(1).3, [1, 1, 1, 1, 1, 1, 1, 2]);
    assert_eq!(shop.trial.tally(), [0, 16, 2, 26]);
    assert_eq!(shop.shown(0, 1), ("ABCDEFGH".into(), 2));
    assert_eq!(shop.shown(0, 2), ("ABCDEFGZ".into(), 1));
    assert_eq!(shop.shown(0, 3), ("ABCDEFGH".into(), 0));
}

/// Images that are refused for what they are, or for their till, among others that are kept.
pub fn refused_between(store: &dyn Calls) {
    let mut shop = Shop::new(store, Capacities::new(3, 3, 16, 8, 32));
    let image = |text: &str| letters(text, 64);
    let images = [
        (0, image("A")),
        (3, image("B")),
        (1, vec![]),
        (2, vec![7; 1_025]),
        (u32::MAX, vec![]),
        (1, image("B")),
        (0, image("AB")),
        (0, image("ABC")),
        (0, image("D")),
        (0, vec![]),
        (1, image("BC")),
    ];
    let said = [[0, 1], [3, 0], [4, 0], [4, 0], [3, 0], [0, 1], [0, 2], [0, 3], [11, 0], [4, 0], [0, 2]];
    assert_eq!(shop.close(&images), said);
    let held = [(0, 1, "A"), (0, 2, "AB"), (0, 3, "ABC"), (1, 1, "B"), (1, 2, "BC")];
    held.iter().for_each(|&(till, version, text)| assert_eq!(shop.shown(till, version).0, text));
    // A till that has given all numbers but one.
    let mut shop = Shop::new(store, Capacities::new(1, 4, 16, 8, 32));
    shop.trial.table[8] = 65_534;
    assert_eq!(shop.close_of(&[(0, "A"), (0, "B"), (0, "C")]), [[0, 65_535], [12, 0], [12, 0]]);
    assert_eq!(shop.shown(0, 65_535).0, "A");
}

/// Images without room among others that are kept; what one of them would have taken first is still free for the next.
pub fn no_room(store: &dyn Calls) {
    let mut shop = Shop::new(store, Capacities::new(2, 4, 16, 2, 9));
    let images = [(0, "ABCDEFGH"), (1, "abcdefgh"), (1, "a"), (1, "bc"), (1, "ABCDEFGHa")];
    assert_eq!(shop.close_of(&images), [[0, 1], [16, 0], [0, 1], [14, 0], [0, 2]]);
    assert_eq!((shop.trial.tally(), shop.trial.picture()), ([0, 9, 2, 17], "ABCDEFGHa".into()));
    // The first eight blocks of the first image would fit, and do not stay.
    let mut shop = Shop::new(store, Capacities::new(1, 4, 16, 3, 10));
    assert_eq!(shop.close_of(&[(0, "ABCDEFGHabc"), (0, "abcdefghij")]), [[16, 0], [0, 1]]);
    assert_eq!((shop.trial.tally(), shop.trial.picture()), ([0, 10, 2, 10], "abcdefghij".into()));
}

/// An image makes room for a later one, and not for an earlier one.
pub fn room_that_comes(store: &dyn Calls) {
    for (order, said) in [([0, 1], [[0, 2], [0, 1]]), ([1, 0], [[0, 1], [16, 0]])] {
        let mut shop = Shop::new(store, Capacities::new(2, 4, 16, 8, 17));
        assert_eq!(shop.close_of(&[(0, "ABCDEFGH")]), [[0, 1]]);
        // Version 2 goes to cells 8 to 15 and H to cell 16; then cells 0 to 7 are free.
        let images = order.map(|till| (till, ["ABCDEFGZ", "abcdefgh"][till as usize]));
        assert_eq!(shop.close_of(&images), said);
        let picture = if order == [0, 1] { "abcdefghABCDEFGZH" } else { "ABCDEFGHabcdefgh" };
        assert_eq!(shop.trial.picture(), picture);
    }
}

/// None at all is accepted and changes nothing; 16 are accepted, and 17 are too many.
pub fn none_and_most(store: &dyn Calls) {
    let mut shop = Shop::new(store, Capacities::new(16, 3, 16, 32, 64));
    let empty = shop.trial.table.clone();
    assert_eq!((shop.close(&[]), shop.trial.table == empty), (vec![], true));
    let text = |n: u32| char::from(b'a' + n as u8).to_string();
    let mut images: Vec<(u32, Vec<u8>)> = (0..16).map(|n| (15 - n, letters(&text(n), 64))).collect();
    assert_eq!(shop.close(&images), [[0, 1]; 16]);
    (0..16).for_each(|n| assert_eq!(shop.shown(15 - n, 1).0, text(n)));
    assert_eq!((shop.close(&[]), shop.trial.tally()), (vec![], [0, 16, 16, 16]));
    images.push((0, letters("q", 64)));
    let seventeen = Collected::of(images.iter().map(|(till, image)| (*till, &image[..])));
    assert_eq!(shop.refused(seventeen.closing()), 4);
    let nothing = Closing { tills: &[0; 17], lengths: &[0; 17], images: &[] };
    assert_eq!(shop.refused(nothing), 4);
}

/// Lists that do not fit: tills, lengths and bytes. Sums are told apart that are the same in 32 bits.
fn misfits() -> Vec<Collected> {
    let lists = |tills: &[u32], lengths: &[u32], bytes: usize| Collected {
        tills: tills.to_vec(),
        lengths: lengths.to_vec(),
        images: vec![7; bytes],
    };
    vec![
        lists(&[0], &[], 0),
        lists(&[], &[0], 0),
        lists(&[], &[1], 1),
        lists(&[], &[], 1),
        lists(&[0, 1], &[2], 2),
        lists(&[0], &[1, 1], 2),
        lists(&[0; 16], &[1; 17], 17),
        lists(&[0; 17], &[1; 16], 16),
        lists(&[0; 17], &[1; 17], 17),
        lists(&[0; 40], &[1; 40], 40),
        lists(&[0, 1], &[64, 64], 127),
        lists(&[0, 1], &[64, 64], 129),
        lists(&[0, 1], &[64, 64], 0),
        lists(&[0], &[0], 1),
        lists(&[0], &[u32::MAX], 0),
        lists(&[0, 1], &[u32::MAX, 1], 0),
        lists(&[0, 1], &[u32::MAX, 65], 64),
        lists(&[0, 1], &[65, u32::MAX], 64),
        lists(&[0, 1, 2], &[1, u32::MAX, 64], 64),
        lists(&[0, 1, 2], &[u32::MAX, u32::MAX, 66], 64),
        lists(&[0, 1], &[1 << 31, 1 << 31], 0),
        lists(&[0, 1, 0, 1], &[1 << 30; 4], 0),
        lists(&[0; 16], &[1 << 28; 16], 0),
        lists(&[0; 16], &[(1 << 28) + 1; 16], 16),
        lists(&[0; 16], &[u32::MAX; 16], 0),
    ]
}

/// Refused whole as 4, after 10, whatever the images are.
pub fn refused_whole(store: &dyn Calls) {
    let mut shop = Shop::new(store, Capacities::new(2, 2, 16, 4, 20));
    assert_eq!(shop.close_of(&[(0, "A")]), [[0, 1]]);
    misfits().iter().for_each(|lists| assert_eq!(shop.refused(lists.closing()), 4, "{lists:?}"));
    let fitting = Collected::of([(0, &[7; 64][..]), (9, &[]), (1, &[8; 64])]);
    shop.trial.pool[64 * 19] = 1;
    misfits().iter().for_each(|lists| assert_eq!(shop.refused(lists.closing()), 10, "{lists:?}"));
    assert_eq!(shop.refused(fitting.closing()), 10);
    assert_eq!(shop.refused(Collected::default().closing()), 10);
    shop.trial.pool[64 * 19] = 0;
    assert_eq!(shop.refused(Closing { lengths: &[64, 1, 64], ..fitting.closing() }), 4);
    shop.trial.table.truncate(7);
    assert_eq!(shop.refused(fitting.closing()), 10);
}
