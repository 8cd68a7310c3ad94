//! Chains, each case worked out by hand from the page.

use crate::chain::answer_on;
use crate::course::{Numbers, UNTOUCHED};
use crate::trial::letters;
use crate::Call;
use terms::{
    fingerprint, Capacities, ChainCalls, Collected, Disk, Rights, Sending, Target, LONGEST_STREAM, MOST_IMAGES,
    NO_LIMIT, OWNER,
};

/// Stores with images in letters.
struct TestChain<'a> {
    chain: &'a dyn ChainCalls,
    disk: Disk,
}

/// Two tills, four versions, 16 blocks, 8 records, 32 cells.
const COMMON: Capacities = Capacities::new(2, 4, 16, 8, 32);

/// The same five with other measures, so that no two stores of a chain are cut alike.
fn capacities(n: usize) -> Capacities {
    COMMON.measured([[64, 8, 20], [128, 4, 0], [256, 16, 100], [512, 8, 50]][n % 4])
}

impl<'a> TestChain<'a> {
    /// Each laid out alone, as lay out takes a store.
    fn new(chain: &'a dyn ChainCalls, capacities: &[Capacities]) -> TestChain<'a> {
        let mut disk = Disk::default();
        for &one in capacities {
            let [0, words] = chain.table_length(one) else { panic!("no length") };
            let (mut pool, mut table) = (vec![9; one.pool_bytes()], vec![9; words as usize]);
            assert_eq!(chain.lay_out(&mut pool, &mut table, one), [0]);
            disk.add(&pool, &table);
        }
        TestChain { chain, disk }
    }

    /// So many stores of other measures; till 0 of each has backed eight letters up, on day 5.
    fn of(chain: &'a dyn ChainCalls, stores: usize) -> TestChain<'a> {
        let mut test = TestChain::new(chain, &(0..stores).map(capacities).collect::<Vec<_>>());
        for store in 0..stores as u32 {
            let call = Call::Dated { till: 0, day: 5, image: test.image(store, "ABCDEFGH") };
            assert_eq!(test.call(store, NO_LIMIT, &call)[..2], [0, 1]);
        }
        test
    }

    fn block_bytes(&self, store: u32) -> u32 {
        let table = self.disk.part(store).expect("the chain has this store").1;
        Capacities::of_table(table).expect("a sound store").block_bytes
    }

    fn image(&self, store: u32, text: &str) -> Vec<u8> {
        letters(text, self.block_bytes(store))
    }

    /// The owner's call; all its numbers.
    fn call(&mut self, store: u32, limit: u32, call: &Call) -> Numbers {
        self.call_by(OWNER, store, limit, call)
    }

    /// Any user's call. The other stores stay, and if it is refused the named one too, and the output.
    fn call_by(&mut self, user: u32, store: u32, limit: u32, call: &Call) -> Numbers {
        let before = self.disk.clone();
        let (numbers, output) = answer_on(self.chain, &mut self.disk, Target { store, limit }, user, call);
        if numbers[0] != 0 {
            assert!(self.disk == before, "{call:?}: altered though refused with {}", numbers[0]);
            assert!(numbers[1..].iter().all(|&field| field == 0), "{call:?}: a field beside the refusal");
            assert!(output.iter().all(|&byte| byte == UNTOUCHED), "{call:?}: output altered");
        }
        let others = |disk: &Disk| -> Vec<(Vec<u8>, Vec<u32>)> {
            let others = (0..).zip(disk.parts()).filter(|&(n, _)| n != store);
            others.map(|(_, (pool, table))| (pool.to_vec(), table.to_vec())).collect()
        };
        assert!(others(&before) == others(&self.disk), "{call:?}: another store was altered");
        numbers
    }

    /// Refusal and version of a backup of letters.
    fn file(&mut self, store: u32, limit: u32, till: u32, text: &str) -> [u32; 2] {
        let image = self.image(store, text);
        let [refusal, version, ..] = self.call(store, limit, &Call::Backup { till, image });
        [refusal, version]
    }

    /// Occupied cells of one store.
    fn cells(&mut self, store: u32) -> u32 {
        let [refusal, cells, ..] = self.call(store, 0, &Call::Tally);
        assert_eq!(refusal, 0);
        cells
    }

    /// The letters of a version.
    fn shown(&mut self, store: u32, till: u32, version: u32) -> String {
        let bytes = self.block_bytes(store);
        let call = Call::Restore { till, version, room: 16 * bytes as usize };
        let (numbers, output) = answer_on(self.chain, &mut self.disk, Target { store, limit: 0 }, OWNER, &call);
        assert_eq!(numbers[0], 0, "{call:?}");
        output[..numbers[1] as usize].chunks(bytes as usize).map(|block| block[0] as char).collect()
    }

    /// One call of every sort, which a store of the chain accepts.
    fn every_sort(&self, store: u32) -> Vec<Call> {
        let image = self.image(store, "ABCDEFGQ");
        let sending = self.whole(store, &image);
        let images = [(1, &image[..]), (0, &image[..])];
        vec![
            Call::Backup { till: 0, image: image.clone() },
            Call::Dated { till: 1, day: 9, image: image.clone() },
            Call::Sent { till: 0, sending: sending.clone() },
            Call::All(Collected::of(images)),
            Call::Restore { till: 0, version: 1, room: 16 * 512 },
            Call::Retire { till: 0, version: 1 },
            Call::Listing { till: 0 },
            Call::VersionOn { till: 0, day: 5 },
            Call::Tally,
            Call::Bill { price: 25 },
            Call::WriteStream { till: 0, version: 1, room: LONGEST_STREAM },
            Call::Offer { till: 0, room: sending.marks.len(), fingerprints: sending.fingerprints },
            Call::SetRights { subject: 3, till: 1, rights: Rights::ALL },
        ]
    }

    /// The message in which all segments of an image follow.
    fn whole(&self, store: u32, image: &[u8]) -> Sending {
        let table = self.disk.part(store).expect("the chain has this store").1;
        let bytes = Capacities::of_table(table).expect("a sound store").segment_bytes();
        Sending::whole(image, bytes, |segment| fingerprint(self.chain.sha1(segment)))
    }

    /// Calls of every sort that names this store are refused with this number, whatever else is wrong with them, and
    /// whatever their limit is.
    fn refuses(&mut self, store: u32, number: u32, calls: &[Call]) {
        for (n, call) in calls.iter().enumerate() {
            for (user, limit) in [(OWNER, NO_LIMIT), (OWNER, 0), (1, 0), (9, 1)] {
                let said = self.call_by(user, store, limit, call)[0];
                assert_eq!(said, number, "call {n}, user {user}, limit {limit}, store {store}: {call:?}");
            }
        }
    }
}

/// Every call on every store of a chain of eight is accepted, changes that store alone if it is one that alters, and
/// answers and leaves what it does on that store alone.
pub fn every_call(chain: &dyn ChainCalls) {
    let test = TestChain::of(chain, 8);
    for store in 0..8 {
        for call in test.every_sort(store) {
            let mut test = TestChain { chain, disk: test.disk.clone() };
            let (pool, table) = test.disk.part(store).expect("there are eight");
            let mut alone = TestChain { chain, disk: Disk::of([(pool, table)]) };
            let said = test.call(store, NO_LIMIT, &call);
            assert_eq!((said[0], said), (0, alone.call(0, NO_LIMIT, &call)), "store {store}, {call:?}");
            assert!(test.disk.part(store) == alone.disk.part(0), "store {store}, {call:?}");
        }
    }
}

/// 1: no store, more than eight, lists of unequal count. It comes before 10 and 3.
pub fn counts(chain: &dyn ChainCalls) {
    let calls = TestChain::of(chain, 1).every_sort(0);
    let mut none = TestChain { chain, disk: Disk::default() };
    [0, 1, 8, u32::MAX].iter().for_each(|&store| none.refuses(store, 1, &calls));
    // Buffers that no list tells of.
    none.disk = Disk { pool_lengths: vec![], table_lengths: vec![], ..TestChain::of(chain, 1).disk };
    none.refuses(0, 1, &calls);
    let mut eight = TestChain::of(chain, 8);
    assert_eq!(eight.cells(7), 8);
    let mut nine = TestChain { chain, disk: Disk::of(eight.disk.parts().chain(eight.disk.part(0))) };
    [0, 8, 9].iter().for_each(|&store| nine.refuses(store, 1, &calls));
    nine.disk.pools[0] ^= 1;
    nine.refuses(0, 1, &calls);
    let whole = eight.disk.clone();
    for (pools, tables) in [(8, 7), (7, 8), (8, 0), (0, 8), (1, 2)] {
        eight.disk = whole.clone();
        eight.disk.pool_lengths.truncate(pools);
        eight.disk.table_lengths.truncate(tables);
        [0, 7, 8].iter().for_each(|&store| eight.refuses(store, 1, &calls));
    }
    // Nine of the one and eight of the other.
    for of_pools in [false, true] {
        eight.disk = whole.clone();
        if of_pools { &mut eight.disk.pool_lengths } else { &mut eight.disk.table_lengths }.push(0);
        eight.refuses(0, 1, &calls);
    }
}

/// 10: lengths that do not add up, also such as do in 32 bits, and such as cut the stores elsewhere. It comes before 3.
pub fn lengths(chain: &dyn ChainCalls) {
    let mut test = TestChain::of(chain, 3);
    let calls = test.every_sort(1);
    let whole = test.disk.clone();
    let wrong: [fn(&mut [u32]); 7] = [
        |lengths| lengths[0] += 1,
        |lengths| lengths[2] -= 1,
        |lengths| lengths[1] = 0,
        |lengths| lengths[1] = u32::MAX,
        // Right in 32 bits.
        |lengths| (lengths[0], lengths[1]) = (u32::MAX, lengths[0] + lengths[1] + 1),
        // Right, but no store ends there.
        |lengths| (lengths[0], lengths[1]) = (lengths[0] - 1, lengths[1] + 1),
        |lengths| (lengths[1], lengths[2]) = (0, lengths[1] + lengths[2]),
    ];
    for (of_pools, spoil) in [true, false].into_iter().flat_map(|of_pools| wrong.map(|spoil| (of_pools, spoil))) {
        test.disk = whole.clone();
        spoil(if of_pools { &mut test.disk.pool_lengths } else { &mut test.disk.table_lengths });
        [1, 3, u32::MAX].iter().for_each(|&store| test.refuses(store, 10, &calls));
    }
    let ends: [fn(&mut Disk); 4] = [
        |disk| disk.pools.push(0),
        |disk| disk.pools.truncate(disk.pools.len() - 1),
        |disk| disk.tables.push(0),
        |disk| disk.tables.truncate(disk.tables.len() - 1),
    ];
    for spoil in ends {
        test.disk = whole.clone();
        spoil(&mut test.disk);
        [0, 1, 2, 3].iter().for_each(|&store| test.refuses(store, 10, &calls));
    }
}

/// 10: one unsound store among eight, whichever is named.
pub fn one_unsound(chain: &dyn ChainCalls) {
    let test = TestChain::of(chain, 8);
    for damaged in 0..8 {
        let mut pools = TestChain { chain, disk: test.disk.clone() };
        let mut tables = TestChain { chain, disk: test.disk.clone() };
        // A byte in a cell that nothing leads to, and a header of no capacities.
        *pools.disk.part_mut(damaged).expect("there are eight").0.last_mut().expect("a pool has cells") = 1;
        tables.disk.part_mut(damaged).expect("there are eight").1[0] = 17;
        for store in [0, damaged, 7, 8] {
            let calls = test.every_sort(store.min(7));
            [&mut pools, &mut tables].into_iter().for_each(|test| test.refuses(store, 10, &calls));
        }
    }
}

/// 3: a store number outside the chain. It comes before all that a call has of its own.
pub fn outside(chain: &dyn ChainCalls) {
    for stores in [1, 2, 8] {
        let mut test = TestChain::of(chain, stores);
        let mut calls = test.every_sort(0);
        calls.extend([Call::Backup { till: 9, image: vec![] }, Call::Restore { till: 0, version: 9, room: 0 }]);
        calls.extend([Call::Bill { price: 10_001 }, Call::All(Collected { lengths: vec![1], ..Collected::default() })]);
        let stores = stores as u32;
        [stores, stores + 1, 8, u32::MAX].iter().for_each(|&store| test.refuses(store, 3, &calls));
        assert_eq!(test.cells(stores - 1), 8);
    }
}

/// Just at the sum of all stores a backup is accepted, one below it is refused, by every call that backs up.
pub fn at_the_limit(chain: &dyn ChainCalls) {
    // 8 cells in each of three stores, and 15 more for another till: but for the second one, of segments of four blocks,
    // which has the first of these.
    for store in 0..3 {
        let test = TestChain::of(chain, 3);
        let image = test.image(store, "ABCDEFGQabcdefg");
        let sending = test.whole(store, &image);
        let calls = [
            Call::Backup { till: 1, image: image.clone() },
            Call::Dated { till: 1, day: 9, image: image.clone() },
            Call::Sent { till: 1, sending },
        ];
        for call in calls {
            let taken = [15, 11, 15][store as usize];
            let mut test = TestChain { chain, disk: test.disk.clone() };
            [0, 23, 24, 24 + taken - 1].iter().for_each(|&limit| assert_eq!(test.call(store, limit, &call)[0], 21));
            assert_eq!(test.call(store, 24 + taken, &call)[..2], [0, 1], "store {store}, {call:?}");
            assert_eq!(test.cells(store), 8 + taken);
        }
    }
    // Nothing occupied and nothing to come: a limit of 0 is kept.
    let mut test = TestChain::new(chain, &[COMMON, COMMON]);
    assert_eq!((test.file(1, 0, 0, "........"), test.file(1, 0, 1, "#.")), ([0, 1], [0, 1]));
    assert_eq!(
        (test.file(1, 0, 0, "A"), test.file(1, 1, 0, "A"), test.file(0, 1, 0, "A")),
        ([21, 0], [0, 2], [21, 0])
    );
    // Only the named store's cells are shared: the other one has an A of its own.
    assert_eq!((test.file(0, 2, 0, "A"), test.file(0, 2, 1, "A")), ([0, 1], [0, 1]));
}

/// What counts are the cells left after removal.
pub fn room_by_removal(chain: &dyn ChainCalls) {
    let mut test = TestChain::new(chain, &[COMMON, COMMON]);
    assert_eq!((test.file(0, 8, 0, "ABCDEFGH"), test.file(1, 13, 0, "abcde")), ([0, 1], [0, 1]));
    // Eight cells more for version 2, and seven of version 1 go: 9, and the 5 of the other store.
    assert_eq!((test.file(0, 13, 0, "ABCDEFGZ"), test.file(0, 14, 0, "ABCDEFGZ")), ([21, 0], [0, 2]));
    assert_eq!((test.cells(0), test.cells(1)), (9, 5));
    assert_eq!((test.shown(0, 0, 1), test.shown(0, 0, 2)), ("ABCDEFGH".into(), "ABCDEFGZ".into()));
    // A second segment of one A goes, since the next image has that block elsewhere: fewer cells than before, so that a
    // limit below the sum of now is kept.
    let mut test = TestChain::new(chain, &[COMMON, COMMON]);
    assert_eq!((test.file(1, 9, 0, "ABCDEFGHA"), test.cells(1)), ([0, 1], 9));
    assert_eq!((test.file(1, 7, 0, "ABCDEFGH"), test.file(1, 8, 0, "ABCDEFGH")), ([21, 0], [0, 2]));
    assert_eq!((test.cells(1), test.shown(1, 0, 1)), (8, "ABCDEFGHA".into()));
    // No cell more and none less, and still above the limit.
    assert_eq!((test.file(1, 7, 0, "ABCDEFGH"), test.file(1, 8, 0, "ABCDEFGH")), ([21, 0], [0, 3]));
}

/// A limit below the present sum refuses backups, and no retire; what that frees is room again.
pub fn retire_above(chain: &dyn ChainCalls) {
    let mut test = TestChain::of(chain, 4);
    for store in 0..4 {
        assert_eq!(test.file(store, 31 - 8 * store, 1, "abcdefgh"), [21, 0]);
        assert_eq!(test.file(store, 31 - 8 * store, 1, "ABCDEFGH"), [21, 0]);
        let length = 8 * test.block_bytes(store);
        assert_eq!(test.call(store, 0, &Call::Retire { till: 0, version: 1 })[..2], [0, length]);
        assert_eq!(test.cells(store), 0);
    }
    assert_eq!((test.file(2, 7, 1, "abcdefgh"), test.file(2, 8, 1, "abcdefgh")), ([21, 0], [0, 1]));
}

/// 21 comes after every other refusal of a call that backs up.
pub fn after_all_others(chain: &dyn ChainCalls) {
    // One till that holds a version of two at most, one record left, three cells left of nine.
    let mut test = TestChain::new(chain, &[COMMON, Capacities::new(1, 2, 16, 2, 9)]);
    assert_eq!(test.file(1, NO_LIMIT, 0, "ABCDEF"), [0, 1]);
    let image = |text: &str| letters(text, 64);
    let message = |text: &str| test.whole(1, &image(text));
    let other = Sending { fingerprints: vec![7; 20], ..message("a") };
    let lacking = Sending { marks: vec![0], segments: vec![], ..message("a") };
    let backup = |text: &str| Call::Backup { till: 0, image: image(text) };
    let cases = [
        (3, OWNER, Call::Backup { till: 1, image: image("a") }),
        (22, 8, backup("a")),
        (23, 1, backup("a")),
        (4, OWNER, Call::Backup { till: 0, image: vec![] }),
        (4, OWNER, Call::Backup { till: 0, image: vec![1; 1_025] }),
        (4, OWNER, Call::Sent { till: 0, sending: Sending { length: 0, ..lacking.clone() } }),
        (19, OWNER, Call::Sent { till: 0, sending: other }),
        (20, OWNER, Call::Sent { till: 0, sending: lacking }),
        (16, OWNER, backup("abcdefgh")),
        (16, OWNER, Call::Dated { till: 0, day: 0, image: image("abcdefgh") }),
        (16, OWNER, Call::Sent { till: 0, sending: message("abcdefgh") }),
        (14, OWNER, backup("a.......b")),
        (14, OWNER, Call::Dated { till: 0, day: 0, image: image("a.......b") }),
        (14, OWNER, Call::Sent { till: 0, sending: message("a.......b") }),
        (21, OWNER, backup("a")),
        (21, OWNER, Call::Dated { till: 0, day: 0, image: image("a") }),
        (21, OWNER, Call::Sent { till: 0, sending: message("a") }),
    ];
    for (number, user, call) in cases {
        [0, 5].iter().for_each(|&limit| assert_eq!(test.call_by(user, 1, limit, &call)[0], number, "{call:?}"));
    }
    // A day, the last number, and a full till.
    assert_eq!(test.call(1, 7, &Call::Dated { till: 0, day: 7, image: image("a") })[..2], [0, 2]);
    assert_eq!(test.call(1, 0, &Call::Retire { till: 0, version: 1 })[0], 0);
    assert_eq!(test.call(1, 0, &Call::Dated { till: 0, day: 6, image: image("ab") })[0], 28);
    assert_eq!(test.call(1, 0, &Call::Dated { till: 0, day: 7, image: image("ab") })[0], 21);
    test.disk.part_mut(1).expect("there are two").1[8] = 65_535;
    assert_eq!(test.file(1, 0, 0, "ab"), [12, 0]);
    test.disk.part_mut(1).expect("there are two").1[8] = 2;
    assert_eq!((test.file(1, 2, 0, "ab"), test.file(1, 0, 0, "ab")), ([0, 3], [11, 0]));
}

/// Each image of a closing is held against the limit by itself, with what is occupied then.
pub fn closings(chain: &dyn ChainCalls) {
    let mut test = TestChain::new(chain, &[Capacities::new(3, 9, 16, 16, 64), COMMON]);
    assert_eq!(test.file(1, 5, 0, "abcde"), [0, 1]);
    // 12 cells for the first store.
    let texts =
        ["ABCDEFGH", "abcdefgh", "xyz", "xyzw", "xy", "x", "", "ABCDEFGZ", "ABCDEFGHIJKLMNOP", "ABCDEFGH", "xyz"];
    let tills = [0, 1, 2, 1, 1, 1, 0, 9, 0, 0, 2];
    let images: Vec<Vec<u8>> = texts.iter().map(|text| letters(text, 64)).collect();
    let closing = Call::All(Collected::of(tills.into_iter().zip(images.iter().map(|image| &image[..]))));
    let said = test.call(0, 5 + 12, &closing);
    // 8; 16; 11; 15; 13; 12; no image; no till; 20; 12 with the first record once more; 12 likewise.
    assert_eq!(said[..=texts.len()], [0, 0, 21, 0, 21, 21, 0, 4, 3, 21, 0, 0]);
    assert_eq!(said[1 + MOST_IMAGES..][..texts.len()], [1, 0, 1, 0, 0, 1, 0, 0, 0, 2, 2]);
    assert_eq!((test.cells(0), test.cells(1)), (12, 5));
    let held = [(0, 1, "ABCDEFGH"), (0, 2, "ABCDEFGH"), (1, 1, "x"), (2, 1, "xyz"), (2, 2, "xyz")];
    held.iter().for_each(|&(till, version, text)| assert_eq!(test.shown(0, till, version), text));
    // An image that frees a cell makes room for a later one, and not for an earlier one.
    for (order, said, cells) in [([0, 1], [0, 0, 0], 9), ([1, 0], [0, 21, 0], 8)] {
        let mut test = TestChain::new(chain, &[COMMON]);
        assert_eq!((test.file(0, 9, 0, "ABCDEFGHA"), test.cells(0)), ([0, 1], 9));
        let images = order.map(|till: u32| (till, letters(["ABCDEFGH", "P"][till as usize], 64)));
        let closing = Call::All(Collected::of(images.iter().map(|(till, image)| (*till, &image[..]))));
        assert_eq!((&test.call(0, 9, &closing)[..3], test.cells(0)), (&said[..], cells));
    }
    // Of a whole that is refused no image is looked at, and none at all is accepted under any limit.
    let misfit = Collected { lengths: vec![63], ..Collected::of([(0, &[7; 64][..])]) };
    assert_eq!(test.call(0, 0, &Call::All(misfit))[0], 4);
    assert_eq!(test.call(0, 0, &Call::All(Collected::default()))[0], 0);
}
