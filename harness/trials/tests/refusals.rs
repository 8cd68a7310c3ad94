//! Every refusal of every call, and where two apply the page's first one.

use keeper::trial::{self, Trial};
use std::collections::BTreeSet;
use terms::{
    Calls, Capacities, ChainCalls, Closing, Disk, Refusal, Right, Rights, Sending, Target, BASE, BLOCK_BYTES, OWNER,
    SEGMENT_BLOCKS,
};
use trials::chains;
use twin::fingerprint_of;

const TILL: usize = 8;

fn letters(text: &str) -> Vec<u8> {
    trial::letters(text, BASE[0])
}

/// Puts the cases to both stores; answers the numbers met.
fn numbers(cases: impl Fn(&dyn Calls) -> Vec<(u32, u32)>) -> BTreeSet<u32> {
    numbers_of_chains(|chain| cases(chain))
}

/// The same with cases of chains.
fn numbers_of_chains(cases: impl Fn(&dyn ChainCalls) -> Vec<(u32, u32)>) -> BTreeSet<u32> {
    let mut met = BTreeSet::new();
    for store in chains() {
        for (n, (said, expected)) in cases(store.as_ref()).into_iter().enumerate() {
            assert_eq!(said, expected, "case {n} of the {}", store.name());
            met.insert(said);
        }
    }
    met
}

/// Table length 1; lay out 1, 2.
fn capacities(store: &dyn Calls) -> Vec<(u32, u32)> {
    let mut cases = Vec::new();
    for measures in [BASE, [128, 16, 0], [256, 4, 100], [512, 8, 55]] {
        let good = Capacities::new(3, 5, 9, 7, 20).measured(measures);
        cases.extend(lengths(store, good));
        for (expected, values) in [(0, inside(measures)), (1, outside(measures))] {
            for (n, values) in values.into_iter().enumerate() {
                cases.extend(values.into_iter().flat_map(|value| with(store, good, n, value, expected)));
            }
        }
    }
    cases
}

/// Values of each capacity at the ends of its range.
fn inside(measures: [u32; 3]) -> Vec<Vec<u32>> {
    let five = Capacities::largest(measures).to_array().into_iter().take(5).map(|most| vec![1, most]);
    five.chain([BLOCK_BYTES.to_vec(), SEGMENT_BLOCKS.to_vec(), vec![0, 1, 20, 99, 100]]).collect()
}

/// Values of each capacity just outside its range, and far outside.
fn outside(measures: [u32; 3]) -> Vec<Vec<u32>> {
    let five = Capacities::largest(measures).to_array().into_iter().take(5).map(|most| vec![0, most + 1, u32::MAX]);
    let sizes = vec![0, 1, 32, 63, 65, 96, 127, 129, 255, 257, 384, 511, 513, 1_024, u32::MAX];
    let segments = vec![0, 1, 2, 3, 5, 7, 9, 12, 15, 17, 32, u32::MAX];
    five.chain([sizes, segments, vec![101, 120, u32::MAX]]).collect()
}

fn lay_out(store: &dyn Calls, capacities: Capacities, bytes: usize, words: usize) -> u32 {
    store.lay_out(&mut vec![1; bytes], &mut vec![1; words], capacities)[0]
}

/// Laying out good capacities in buffers of the right length and of others.
fn lengths(store: &dyn Calls, good: Capacities) -> Vec<(u32, u32)> {
    let [refusal, words] = store.table_length(good);
    let (bytes, words) = (20 * good.block_bytes as usize, words as usize);
    assert_eq!((refusal, words), (0, good.table_words()));
    let lay_out = |bytes, words| lay_out(store, good, bytes, words);
    vec![
        (lay_out(bytes, words), 0),
        (lay_out(bytes - 1, words), 2),
        (lay_out(bytes * 2, words), 2),
        (lay_out(bytes, words + 1), 2),
        (lay_out(bytes, words - 7), 2),
        (lay_out(0, 0), 2),
    ]
}

/// Good capacities but for one of them; if it is outside its range, that is said before any wrong length.
fn with(store: &dyn Calls, good: Capacities, n: usize, value: u32, expected: u32) -> Vec<(u32, u32)> {
    let mut eight = good.to_array();
    eight[n] = value;
    let asked = Capacities::from_array(eight);
    let mut cases = vec![(store.table_length(asked)[0], expected)];
    if expected == 1 {
        cases.push((lay_out(store, asked, good.pool_bytes(), good.table_words()), 1));
        cases.push((lay_out(store, asked, 0, 0), 1));
    }
    cases
}

/// Backup 10, 3, 4, 11, 12, then 14 before 16.
fn backups(store: &dyn Calls) -> Vec<(u32, u32)> {
    let mut cases = Vec::new();
    let mut one = Trial::new(store, Capacities::new(1, 2, 16, 2, 9));
    let make = |one: &mut Trial, till, image: &[u8]| store.backup(&mut one.pool, &mut one.table, OWNER, till, image)[0];
    one.table[5] = 1;
    cases.push((make(&mut one, 1, &[]), 10));
    one.table[5] = 0;
    cases.push((make(&mut one, 1, &[]), 3));
    one.table[TILL] = 65_533;
    cases.push((make(&mut one, 0, &letters("A")), 0));
    cases.push((make(&mut one, 0, &letters("A")), 0));
    cases.push((make(&mut one, 0, &[]), 4));
    cases.push((make(&mut one, 0, &[1; 1_025]), 4));
    cases.push((make(&mut one, 0, &letters("ABCDEFGHI")), 11));
    cases.push((store.retire(&mut one.pool, &mut one.table, OWNER, 0, 65_534)[0], 0));
    cases.push((make(&mut one, 0, &letters("ABCDEFGHI")), 12));
    let mut one = Trial::new(store, Capacities::new(2, 4, 16, 2, 9));
    cases.push((make(&mut one, 0, &letters("ABCDEFGH")), 0));
    cases.push((make(&mut one, 1, &letters("abcdefgh")), 16));
    cases.push((make(&mut one, 1, &letters("a")), 0));
    cases.push((make(&mut one, 1, &letters("bc")), 14));
    cases.push((make(&mut one, 1, &letters("ABCDEFGHa")), 0));
    let mut one = Trial::new(store, Capacities::new(1, 4, 24, 2, 10));
    cases.push((make(&mut one, 0, &letters("ABCDEFGHabcdefghx")), 16));
    cases.push((make(&mut one, 0, &letters("ABCDEFGHaAAAAAAAx")), 16));
    cases
}

/// A backup with a day 10, 3, 4, 11, 12, 28, then 14 before 16.
fn dated(store: &dyn Calls) -> Vec<(u32, u32)> {
    let mut cases = Vec::new();
    let mut one = Trial::new(store, Capacities::new(2, 2, 16, 2, 9));
    let make = |one: &mut Trial, till, day, image: &[u8]| {
        let before = (one.pool.clone(), one.table.clone());
        let answer = store.backup_dated(&mut one.pool, &mut one.table, OWNER, till, day, image);
        let stays = answer[1] == 0 && before == (one.pool.clone(), one.table.clone());
        assert!(answer[0] == 0 || stays, "altered though refused with {}", answer[0]);
        answer[0]
    };
    let (large, many) = (letters("abcdefgh"), letters("ABCDEFGHIJKLMNOP"));
    one.table[TILL] = 65_533;
    cases.push((make(&mut one, 0, 7, &letters("A")), 0));
    // A day before the newest's, also where there is no record for the second segment.
    for image in [letters("B"), large.clone(), many.clone()] {
        cases.push((make(&mut one, 0, 6, &image), 28));
        cases.push((make(&mut one, 2, 6, &image), 3));
    }
    for image in [&[][..], &[1; 1_025]] {
        cases.extend([(make(&mut one, 0, 6, image), 4), (make(&mut one, 0, 7, image), 4)]);
        cases.extend([(make(&mut one, 2, 6, image), 3), (make(&mut one, u32::MAX, 7, image), 3)]);
    }
    cases.push((make(&mut one, 0, 7, &many), 14));
    cases.push((make(&mut one, 0, 8, &letters("ABCDEFGHIJ")), 14));
    cases.push((make(&mut one, 0, 8, &letters("B")), 0));
    for day in [0, 7, 8, u32::MAX] {
        cases.extend([(make(&mut one, 0, day, &large), 11), (make(&mut one, 0, day, &[]), 4)]);
    }
    cases.push((store.retire(&mut one.pool, &mut one.table, OWNER, 0, 65_534)[0], 0));
    for day in [0, 7, 8, u32::MAX] {
        cases.extend([(make(&mut one, 0, day, &large), 12), (make(&mut one, 0, day, &[]), 4)]);
    }
    cases.extend(dated_without_room(store, make));
    one.pool[64 * 8] = 1;
    for (till, day, image) in [(0, 6, &large[..]), (0, 9, &large), (2, 6, &large), (2, 9, &[]), (0, 9, &[])] {
        cases.push((make(&mut one, till, day, image), 10));
    }
    cases
}

/// The same where a run is lacking: a day that is not too early gets 16.
fn dated_without_room(store: &dyn Calls, make: impl Fn(&mut Trial, u32, u32, &[u8]) -> u32) -> Vec<(u32, u32)> {
    let mut one = Trial::new(store, Capacities::new(2, 4, 16, 4, 9));
    let large = letters("abcdefgh");
    vec![
        (make(&mut one, 0, 7, &letters("ABCDEFGH")), 0),
        (make(&mut one, 0, 7, &large), 16),
        (make(&mut one, 0, 8, &large), 16),
        (make(&mut one, 0, 6, &large), 28),
        (make(&mut one, 1, 6, &large), 16),
        (make(&mut one, 1, 0, &letters("a")), 0),
    ]
}

/// Lookup by day 10, 3, 29.
fn days(store: &dyn Calls) -> Vec<(u32, u32)> {
    let mut one = Trial::new(store, Capacities::new(2, 4, 16, 8, 32));
    let on = |one: &Trial, till, day| {
        let [refusal, version] = store.version_on(&one.pool, &one.table, OWNER, till, day);
        assert_eq!(refusal == 0, version != 0, "a version and a refusal, or neither");
        refusal
    };
    let mut cases = vec![(on(&one, 0, u32::MAX), 29), (on(&one, 2, u32::MAX), 3), (on(&one, u32::MAX, 0), 3)];
    assert_eq!(one.file_on(5, "A"), [0, 1]);
    cases.extend([
        (on(&one, 0, 4), 29),
        (on(&one, 0, 5), 0),
        (on(&one, 1, 5), 29),
        (on(&one, 2, 5), 3),
        (on(&one, 2, 4), 3),
    ]);
    one.table[TILL + 4 + 19 + 2] = 1;
    for (till, day) in [(0, 5), (0, 4), (1, 5), (2, 5), (2, 4)] {
        cases.push((on(&one, till, day), 10));
    }
    cases.extend([
        (store.version_on(&[], &[], OWNER, 0, 0)[0], 10),
        (store.version_on(&one.pool, &one.table[..7], OWNER, 9, 0)[0], 10),
    ]);
    cases
}

/// Restore 10, 3, 17 or 18, 5; retire 10, 3, 17 or 18; listing 10, 3; tally 10.
fn others(store: &dyn Calls) -> Vec<(u32, u32)> {
    let mut one = Trial::of_page(store, 32);
    for image in ["ABCDEFGH", "ABCDEFGZ", "A"] {
        store.backup(&mut one.pool, &mut one.table, OWNER, 0, &letters(image));
    }
    let mut cases = Vec::new();
    let mut output = vec![0; 512];
    for (till, version, restored, retired) in [
        (1, 0, 3, 3),
        (u32::MAX, 1, 3, 3),
        (0, 0, 17, 17),
        (0, 4, 17, 17),
        (0, u32::MAX, 17, 17),
        (0, 2, 5, 0),
        (0, 2, 18, 18),
        (1, 2, 3, 3),
        (0, 3, 0, 0),
        (0, 3, 18, 18),
        (0, 4, 17, 17),
        (0, 1, 5, 0),
        (0, 1, 18, 18),
        (0, 0, 17, 17),
    ] {
        let in_no_room = if restored == 0 { 5 } else { restored };
        cases.push((store.restore(&one.pool, &one.table, OWNER, till, version, &mut [])[0], in_no_room));
        cases.push((store.restore(&one.pool, &one.table, OWNER, till, version, &mut output[..64])[0], restored));
        cases.push((store.retire(&mut one.pool, &mut one.table, OWNER, till, version)[0], retired));
        cases.push((store.listing(&one.pool, &one.table, OWNER, till)[0], if till == 0 { 0 } else { 3 }));
    }
    one.pool[64 * 31] = 1;
    cases.push((store.restore(&one.pool, &one.table, OWNER, 1, 0, &mut [])[0], 10));
    cases.push((store.retire(&mut one.pool, &mut one.table, OWNER, 1, 0)[0], 10));
    cases.push((store.listing(&one.pool, &one.table, OWNER, 1)[0], 10));
    cases.push((store.tally(&one.pool, &one.table, OWNER)[0], 10));
    cases.push((store.tally(&[], &[], OWNER)[0], 10));
    cases.push((store.tally(&one.pool, &one.table[..7], OWNER)[0], 10));
    cases
}

/// Writing a stream 10, 3, 17 or 18, 5; reading one 24, 25, 5, then 24 and 26 in its order.
fn streams(store: &dyn Calls) -> Vec<(u32, u32)> {
    let mut one = Trial::of_page(store, 32);
    store.backup(&mut one.pool, &mut one.table, OWNER, 0, &letters("A"));
    let (mut stream, mut cases) = (vec![0; 70], Vec::new());
    let mut write = |one: &Trial, asked: &[(u32, u32, usize, u32)]| {
        for &(till, version, room, expected) in asked {
            let output = &mut stream[..room];
            cases.push((store.write_stream(&one.pool, &one.table, OWNER, till, version, output)[0], expected));
        }
    };
    write(&one, &[(1, 0, 0, 3), (u32::MAX, 1, 70, 3), (0, 0, 0, 17), (0, 2, 70, 17), (0, u32::MAX, 0, 17)]);
    write(&one, &[(0, 1, 68, 5), (0, 1, 69, 0)]);
    one.retire(1);
    write(&one, &[(1, 1, 0, 3), (0, 1, 0, 18), (0, 1, 70, 18), (0, 2, 0, 17), (0, 0, 70, 17)]);
    cases.push((store.write_stream(&[], &[], OWNER, 1, 0, &mut [])[0], 10));
    let mut read = |stream: &[u8], room: usize, expected| {
        cases.push((store.read_stream(stream, &mut vec![0; room])[0], expected));
    };
    read(&stream[..69], 64, 0);
    read(&stream[..3], 0, 24);
    read(&[0; 4], 0, 25);
    read(&[1, 0, 1, 0], 0, 25);
    read(&stream[..4], 63, 5);
    read(&stream[..4], 64, 24);
    read(&stream[..68], 64, 24);
    read(&stream[..70], 64, 24);
    read(&[&[64, 0, 0, 0, 1][..], &[0; 65]].concat(), 64, 26);
    read(&[64, 0, 0, 0, 2], 64, 26);
    cases
}

/// The first message 10, 3, 4; marks that are refused stay as they were.
fn offers(store: &dyn Calls) -> Vec<(u32, u32)> {
    // Images of 17 blocks have three segments.
    let mut one = Trial::new(store, Capacities::new(2, 2, 17, 4, 20));
    let offer = |one: &Trial, till: u32, prints: usize, count: usize| {
        let mut marks = vec![9; count];
        let [refusal] = store.offer(&one.pool, &one.table, OWNER, till, &vec![1; prints], &mut marks);
        assert!(marks.iter().all(|&mark| mark == if refusal == 0 { 0 } else { 9 }), "marks after {refusal}");
        refusal
    };
    let mut cases = vec![(offer(&one, 0, 20, 1), 0), (offer(&one, 1, 60, 3), 0)];
    for (prints, count) in [(0, 0), (0, 1), (19, 0), (19, 1), (21, 1), (39, 1), (39, 2), (59, 3), (61, 3)] {
        cases.push((offer(&one, 0, prints, count), 4));
        cases.push((offer(&one, 2, prints, count), 3));
    }
    for (prints, count) in [(80, 4), (80, 3), (60, 4), (60, 2), (20, 2), (20, 0), (40, 1), (20_000, 1_000)] {
        cases.push((offer(&one, 1, prints, count), 4));
    }
    cases.extend([(offer(&one, 2, 20, 1), 3), (offer(&one, u32::MAX, 20, 1), 3)]);
    one.pool[0] = 1;
    cases.extend([(offer(&one, 0, 20, 1), 10), (offer(&one, 2, 20, 1), 10), (offer(&one, 0, 0, 0), 10)]);
    cases
}

/// The second message as `change` leaves it, of which all segments follow.
fn changed(image: &[u8], change: impl Fn(&mut Sending)) -> Sending {
    let mut sending = Sending::whole(image, 512, fingerprint_of);
    change(&mut sending);
    sending
}

/// Messages that are refused with 4: the length, the marks, the fingerprints, the segments.
fn misfits() -> Vec<Sending> {
    let whole = trial::letters("ABCDEFGHIJ", 64);
    let changes: [fn(&mut Sending); 19] = [
        |sending| sending.length = 0,
        |sending| sending.length = 512,
        |sending| sending.length = 1_025,
        |sending| sending.length = 1_537,
        |sending| sending.length = u32::MAX,
        |sending| sending.marks[0] = 2,
        |sending| sending.marks[1] = 255,
        |sending| (sending.marks[0], sending.marks[1]) = (0, 2),
        |sending| sending.marks[0] = 0,
        |sending| sending.marks.push(0),
        |sending| sending.marks.truncate(1),
        |sending| sending.marks.clear(),
        |sending| sending.fingerprints.truncate(39),
        |sending| sending.fingerprints.truncate(20),
        |sending| sending.fingerprints.extend([1; 20]),
        |sending| sending.segments.truncate(1_023),
        |sending| sending.segments.truncate(512),
        |sending| sending.segments.push(0),
        |sending| sending.segments.clear(),
    ];
    let mut all: Vec<Sending> = changes.map(|change| changed(&whole, change)).into();
    // Nothing at all, and an image with one byte too many.
    all.push(Sending::default());
    all.push(Sending::whole(&[7; 17 * 64 + 1], 512, fingerprint_of));
    all
}

/// The second message 10, 3, 4, 11, 12, then 19 and 20 at the first segment that has either, then 14 before 16.
fn messages(store: &dyn Calls) -> Vec<(u32, u32)> {
    let mut cases = Vec::new();
    let mut one = Trial::new(store, Capacities::new(2, 2, 17, 2, 9));
    let make = |one: &mut Trial, till, sending: &Sending| {
        let before = (one.pool.clone(), one.table.clone());
        let answer = store.backup_sent(&mut one.pool, &mut one.table, OWNER, till, sending.message());
        let stays = answer[1] == 0 && before == (one.pool.clone(), one.table.clone());
        assert!(answer[0] == 0 || stays, "altered though refused with {}", answer[0]);
        answer[0]
    };
    let small = changed(&letters("A"), |_| {});
    let other = changed(&letters("B"), |sending| sending.fingerprints[0] ^= 1);
    let unknown = changed(&letters("B"), |sending| (sending.marks[0], sending.segments) = (0, vec![]));
    for sending in misfits() {
        cases.push((make(&mut one, 0, &sending), 4));
        cases.push((make(&mut one, 2, &sending), 3));
    }
    one.table[TILL] = 65_533;
    cases.push((make(&mut one, 0, &other), 19));
    cases.push((make(&mut one, 0, &unknown), 20));
    cases.extend([(make(&mut one, 0, &small), 0), (make(&mut one, 0, &small), 0)]);
    for sending in [&small, &other, &unknown] {
        cases.push((make(&mut one, 0, sending), 11));
        cases.push((make(&mut one, 2, sending), 3));
    }
    misfits().iter().for_each(|sending| cases.push((make(&mut one, 0, sending), 4)));
    cases.push((store.retire(&mut one.pool, &mut one.table, OWNER, 0, 65_534)[0], 0));
    [&small, &other, &unknown].into_iter().for_each(|sending| cases.push((make(&mut one, 0, sending), 12)));

    // Eight cells are left, and one record: 19 and 20 of a later segment come before 14 and 16 of an earlier one.
    let large = |text: &str, change: fn(&mut Sending)| changed(&letters(text), change);
    let wrong: fn(&mut Sending) = |sending| sending.fingerprints[39] ^= 1;
    let lacking: fn(&mut Sending) = |sending| {
        sending.marks[1] = 0;
        sending.segments.truncate(512);
    };
    for (text, refusal) in [("abcdefghabcdefghi", 14), ("abcdefghbcdefghi", 14), ("abcdefgh", 0)] {
        if refusal != 0 {
            cases.push((make(&mut one, 1, &large(text, wrong)), 19));
        }
        if text.len() == 16 {
            cases.push((make(&mut one, 1, &large(text, lacking)), 20));
        }
        cases.push((make(&mut one, 1, &large(text, |_| {})), refusal));
    }
    let mut one = Trial::new(store, Capacities::new(1, 4, 24, 2, 10));
    cases.push((make(&mut one, 0, &large("ABCDEFGHabcdefghx", wrong)), 19));
    cases.push((make(&mut one, 0, &large("ABCDEFGHabcdefgh", lacking)), 20));
    cases.push((make(&mut one, 0, &large("ABCDEFGHabcdefghx", |_| {})), 16));
    one.pool[64 * 9] = 1;
    [&small, &other, &unknown].into_iter().for_each(|sending| cases.push((make(&mut one, 0, sending), 10)));
    misfits().iter().for_each(|sending| cases.push((make(&mut one, 2, sending), 10)));
    cases
}

/// The lists of a closing, tills, lengths and how many bytes, and what it is answered as a whole.
type Lists = (&'static [u32], &'static [u32], usize, u32);

/// Too many images, lists of unequal count, lengths that do not add up to the bytes, also where they do so in 32 bits; and
/// lists that fit, though their images are refused.
const LISTS: [Lists; 17] = [
    (&[0; 17], &[0; 17], 0, 4),
    (&[0; 17], &[1; 17], 17, 4),
    (&[0, 1], &[1], 1, 4),
    (&[0], &[1, 0], 1, 4),
    (&[], &[], 1, 4),
    (&[9], &[0], 1, 4),
    (&[9], &[1], 0, 4),
    (&[0], &[2_000], 1_999, 4),
    (&[0, 1], &[u32::MAX, 1], 0, 4),
    (&[0, 1], &[8, u32::MAX], 7, 4),
    (&[0; 16], &[1 << 28; 16], 0, 4),
    (&[0; 4], &[u32::MAX; 4], 0, 4),
    (&[], &[], 0, 0),
    (&[0], &[64], 64, 0),
    (&[9, 9], &[0, 1], 1, 0),
    (&[0], &[2_000], 2_000, 0),
    (&[0; 16], &[64; 16], 1_024, 0),
];

/// A closing 10, then 4.
fn closings(store: &dyn Calls) -> Vec<(u32, u32)> {
    let mut one = Trial::new(store, Capacities::new(2, 2, 17, 2, 9));
    let mut cases = Vec::new();
    // In the end a cell that nothing leads to is not all zero.
    for byte in [0, 1] {
        one.pool[64 * 8] = byte;
        for (tills, lengths, bytes, expected) in LISTS {
            let (before, images) = ((one.pool.clone(), one.table.clone()), &vec![7; bytes]);
            let answer = store.backup_all(&mut one.pool, &mut one.table, OWNER, Closing { tills, lengths, images });
            let stays = answer[1..].iter().all(|&field| field == 0) && before == (one.pool.clone(), one.table.clone());
            assert!(answer[0] == 0 || stays, "altered though refused with {}", answer[0]);
            cases.push((answer[0], if byte == 0 { expected } else { 10 }));
        }
    }
    cases
}

/// A change of rights 10, 3, 22, 23; the tally 10, 22, 23; the bill these and 30; what keeper::keys has of every call, in
/// brief.
fn users(store: &dyn Calls) -> Vec<(u32, u32)> {
    let mut one = Trial::new(store, Capacities::new(2, 4, 16, 8, 32));
    let rights = Rights::only(Right::List);
    let mut cases = Vec::new();
    let asked = [(9, 9, 2, 3), (8, 1, 0, 22), (0, 0, 0, 22), (1, 0, 0, 22), (1, 8, 0, 22), (1, 1, 0, 23), (0, 1, 0, 0)];
    for (user, subject, till, expected) in asked {
        let Trial { pool, table, .. } = &mut one;
        let [refusal] = store.set_rights(pool, table, user, subject, till, rights);
        cases.push((refusal, expected));
    }
    for (user, till, expected) in [(1, 0, 0), (1, 1, 23), (2, 0, 23), (8, 0, 22), (8, 2, 3), (0, 1, 0)] {
        cases.push((store.listing(&one.pool, &one.table, user, till)[0], expected));
    }
    cases.extend([(0, 0), (1, 23), (8, 22)].map(|(user, said)| (store.tally(&one.pool, &one.table, user)[0], said)));
    for (user, price, said) in [(0, 10_000, 0), (0, 10_001, 30), (1, 10_001, 23), (8, 10_001, 22)] {
        cases.push((store.bill(&one.pool, &one.table, user, price)[0], said));
    }
    one.table[TILL + 3] = 1;
    cases.push((store.set_rights(&one.pool, &mut one.table, 9, 9, 9, rights)[0], 10));
    cases.push((store.tally(&one.pool, &one.table, 9)[0], 10));
    cases.push((store.bill(&one.pool, &one.table, 9, 10_001)[0], 10));
    cases
}

/// Turn 27: the till count, a mark, the last till.
fn turns(store: &dyn Calls) -> Vec<(u32, u32)> {
    let refused = [[0, 0, 0], [17, 0, 0], [u32::MAX, 0, 0], [3, 8, 0], [3, 1 << 31, 0], [3, 0, 3], [3, 0, u32::MAX]];
    let accepted = [[1, 0, 0], [16, 0xffff, 15], [3, 7, 2], [3, 0, 2]];
    let cases = refused.map(|record| (record, 27)).into_iter().chain(accepted.map(|record| (record, 0)));
    cases.map(|(record, expected)| (store.turn(record)[0], expected)).collect()
}

/// A backup on a chain 1, 10, 3, then its own, then 21.
fn on_chains(chain: &dyn ChainCalls) -> Vec<(u32, u32)> {
    let one = Trial::new(chain, Capacities::new(1, 2, 16, 1, 4));
    let part = (&one.pool[..], &one.table[..]);
    let (two, nine) = (Disk::of([part; 2]), Disk::of([part; 9]));
    let unequal = Disk { pool_lengths: vec![256], ..two.clone() };
    let off = Disk { pool_lengths: vec![256, 255], ..two.clone() };
    let mut unsound = two.clone();
    unsound.pools[0] = 1;
    let make = |disk: &Disk, store, limit, till, image: &[u8]| {
        let mut left = disk.clone();
        let refusal = chain.chain_backup(&mut left, Target { store, limit }, OWNER, till, image)[0];
        assert!((refusal != 0) == (left == *disk), "refused with {refusal}");
        refusal
    };
    let mut cases: Vec<(u32, u32)> =
        [Disk::default(), nine, unequal].iter().map(|disk| (make(disk, 9, 0, 9, &[]), 1)).collect();
    cases.extend([off, unsound].iter().map(|disk| (make(disk, 9, 0, 9, &[]), 10)));
    cases.extend([2, 9, u32::MAX].map(|store| (make(&two, store, 0, 9, &[]), 3)));
    cases.extend([(make(&two, 1, 0, 1, &[]), 3), (make(&two, 1, 0, 0, &[]), 4)]);
    cases.extend(
        [("A.......B", 14), ("ABCDE", 16), ("AB", 21)].map(|(text, said)| (make(&two, 1, 1, 0, &letters(text)), said)),
    );
    cases.push((make(&two, 1, 2, 0, &letters("AB")), 0));
    cases
}

#[test]
fn every_number() {
    let mut met = numbers(capacities);
    met.extend(numbers(backups));
    met.extend(numbers(others));
    met.extend(numbers(streams));
    met.extend(numbers(offers));
    met.extend(numbers(messages));
    met.extend(numbers(closings));
    met.extend(numbers(dated));
    met.extend(numbers(days));
    met.extend(numbers(users));
    met.extend(numbers(turns));
    met.extend(numbers_of_chains(on_chains));
    let all: BTreeSet<u32> = Refusal::ALL.iter().map(|refusal| refusal.number()).chain([0]).collect();
    assert_eq!(met, all);
}
