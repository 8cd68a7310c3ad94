//! Sending only what the box lacks, put to the proved store, the twin and the keeper: the cases worked out by hand, tills
//! that do it right, every small message, and random ones.

use keeper::calls::{Before, List, Style};
use keeper::closings::Shop;
use keeper::inspect::inspect;
use keeper::sketch::sound_store;
use keeper::stock::{fits, Stock};
use keeper::trial::{letters, Trial};
use keeper::{sent, Call, Course, Random};
use lurdempos::Proved;
use std::collections::BTreeMap;
use terms::{Calls, Capacities, Refusal, Sending, BLOCK_BYTES, OWNER, SEGMENT_BLOCKS};
use trials::compare::compare;
use trials::{history, seed, stores, times};
use twin::{earlier, fingerprint_of, Twin};

fn both(case: impl Fn(&dyn Calls)) {
    stores().iter().for_each(|store| case(store.as_ref()));
}

#[test]
fn published_vectors() {
    both(sent::published_vectors);
}

#[test]
fn marked() {
    both(sent::marked);
}

#[test]
fn sent_or_had() {
    both(sent::sent_or_had);
}

#[test]
fn nineteen() {
    both(sent::nineteen);
}

#[test]
fn the_first_segment() {
    both(sent::the_first_segment);
}

#[test]
fn records_that_cannot_match() {
    both(|store| sent::records_that_cannot_match(store, earlier));
}

#[test]
fn two_with_one_fingerprint() {
    both(sent::two_with_one_fingerprint);
}

/// Every size of a block with every size of a segment.
fn sizes() -> impl Iterator<Item = (u32, u32)> {
    BLOCK_BYTES.into_iter().flat_map(|bytes| SEGMENT_BLOCKS.map(|blocks| (bytes, blocks)))
}

#[test]
fn every_size() {
    sizes().for_each(|(bytes, blocks)| both(|store| sent::every_size(store, bytes, blocks)));
}

/// The proved SHA-1 is the twin's, which the twin's tests hold against the system's: every length up to eight chunks, and
/// longer ones.
#[test]
fn sha1_of_any_message() {
    let mut random = Random::new(seed());
    let longer: Vec<usize> = (0..200 * times()).map(|_| random.below(100_000)).collect();
    for length in (0..520).chain(longer).chain([1 << 21, (1 << 21) + 63]) {
        let mut message = vec![0; length];
        match random.below(4) {
            0 => message.fill(*random.pick(&[0, 255])),
            _ => random.fill(&mut message),
        }
        assert_eq!(Proved.sha1(&message), Twin.sha1(&message), "{length} bytes");
    }
}

/// A till that does it right: it offers, and sends what the store lacks by the store's own marks. The course holds the
/// result against a full backup on a copy of the store, answer, bytes and words. Answers the refusal and the bytes sent.
fn exchange(course: &mut Course, till: u32, image: &[u8], segment: usize) -> (u32, usize) {
    let whole = Sending::whole(image, segment, fingerprint_of);
    let (fingerprints, room) = (whole.fingerprints.clone(), whole.marks.len());
    let mut marks = vec![9; room];
    let (pool, table) = course.buffers();
    assert_eq!(Proved.offer(pool, table, OWNER, till, &fingerprints, &mut marks), [0]);
    assert_eq!(course.call(&Call::Offer { till, fingerprints, room })[0], 0);
    let sending = whole.lacking(&marks);
    let bytes = sending.segments.len();
    let [refusal, ..] = course.call(&Call::Sent { till, sending });
    assert!([0, 11, 12, 14, 16].contains(&refusal), "refused with {refusal}");
    if refusal == 0 {
        let till = &course.keeper().tills()[till as usize];
        assert!(till.newest_image() == Some(image), "another image");
    }
    (refusal, bytes)
}

/// A shop's closings at every size of a block and of a segment: the same store as with full images, and far fewer bytes.
#[test]
fn closings() {
    for (bytes, blocks) in sizes() {
        let capacities = Capacities::new(3, 12, 33_280 / bytes, 1_500, 8_000).measured([bytes, blocks, 20]);
        let (mut course, mut shop) = (Course::new(capacities, stores()), Shop::new(seed(), 3));
        let mut full = Trial::new(&Proved, capacities);
        let (mut whole, mut sent) = (0, 0);
        for (day, till) in (0..12).flat_map(|day| (0..3).map(move |till| (day, till))) {
            let image = shop.close(till as usize).to_vec();
            let (refusal, bytes) = exchange(&mut course, till, &image, capacities.segment_bytes());
            assert_eq!((refusal, full.backup_of(till, &image)[0]), (0, 0), "day {day}, till {till}");
            (whole, sent) = (whole + image.len(), sent + bytes);
        }
        let (pool, table) = course.buffers();
        assert!(pool == full.pool && table == full.table, "another store than that of full images");
        inspect(pool, table, course.keeper());
        println!("{bytes} x {blocks}: {sent} of {whole} bytes");
        assert!(sent < whole, "{sent} of {whole}");
    }
}

/// Random lists on small stores of any measures, in which tills that do it right send every image, also to stores with
/// backups from before blank blocks were known.
#[test]
fn tills_that_do_it_right() {
    let mut random = Random::new(seed());
    let mut met: BTreeMap<u32, usize> = BTreeMap::new();
    for round in 0..150 * times() {
        let (capacities, style) = history::small(&mut random);
        let list = List::new(&mut random, capacities, style);
        let mut course = Course::new(capacities, stores()).with_earlier(earlier);
        let before = [Before::Never, Before::FirstThird, Before::Half][round % 3];
        for n in 0..200 {
            let (user, call) = list.next(&mut random, &course);
            match before.made(&mut random, n, 200, call) {
                Call::Backup { till, image } if till < capacities.tills && fits_in(&image, capacities) => {
                    let (refusal, _) = exchange(&mut course, till, &image, capacities.segment_bytes());
                    *met.entry(refusal).or_default() += 1;
                }
                call => drop(course.call_by(user, &call)),
            }
        }
        inspect(course.buffers().0, course.buffers().1, course.keeper());
    }
    println!("{met:?}");
    assert!([0, 11, 14, 16].iter().all(|refusal| met.get(refusal).is_some_and(|&often| often > 20)), "{met:?}");
}

fn fits_in(image: &[u8], capacities: Capacities) -> bool {
    (1..=capacities.image_bytes()).contains(&image.len())
}

/// Every message of three segments, each of one of five sorts, sent or not or with a mark of 2, with its fingerprint or
/// another, whole or a byte or a block short: both stores say what the keeper finds.
#[test]
fn every_small_message() {
    let mut one = Trial::new(&Twin, Capacities::new(1, 4, 12, 4, 24).measured([64, 4, 20]));
    assert_eq!((one.file("ABCDabcd"), one.file("ABCXabcd")), ([0, 1], [0, 2]));
    let stock = Stock::of(&one.pool, &one.table, &fingerprint_of);
    // Zeros, a whole record's, that of a record that has lost something, and two that are new.
    let sorts = ["....", "abcd", "ABCD", "new1", "new2"].map(|text| letters(text, 64));
    let mut met: BTreeMap<u32, usize> = BTreeMap::new();
    for choice in 0..5 * 5 * 5 * 27 * 8 * 3 {
        let digit = |at: usize, of: usize| choice / at % of;
        let image: Vec<u8> = [1, 5, 25].iter().flat_map(|&at| sorts[digit(at, 5)].clone()).collect();
        let whole = Sending::whole(&image, 256, fingerprint_of);
        let marks: Vec<u8> = [125, 375, 1_125].iter().map(|&at| digit(at, 3) as u8).collect();
        let sent = whole.segments.chunks(256).zip(&marks).filter(|(_, &mark)| mark == 1);
        let segments = sent.flat_map(|(segment, _)| segment.to_vec()).collect();
        let mut sending = Sending { marks, segments, ..whole };
        (0..3).filter(|n| digit(3_375, 8) >> n & 1 == 1).for_each(|n| sending.fingerprints[20 * n + n] ^= 1);
        sending.length -= [0, 1, 64][digit(27_000, 3)];
        let expected = match fits(&sending, Capacities::of_table(&one.table).expect("a sound store")) {
            true => stock.assembled(&sending, &fingerprint_of).map_or_else(Refusal::number, |_| 0),
            false => 4,
        };
        let said = compare(&one.pool, &one.table, &[(OWNER, Call::Sent { till: 0, sending })]);
        assert!(said.contains(&expected) || expected == 0 && said.is_subset(&[14, 16].into()), "{choice}: {said:?}");
        *met.entry(expected).or_default() += 1;
    }
    println!("{met:?}");
    assert!([0, 4, 19, 20].iter().all(|refusal| met.get(refusal).is_some_and(|&often| often > 100)), "{met:?}");
}

/// Any sound stores, with equal records, cells of 255s and records that have lost positions: messages of every kind.
#[test]
fn messages_to_any_store() {
    let mut random = Random::new(seed());
    let mut met: BTreeMap<(char, u32), usize> = BTreeMap::new();
    for _ in 0..1_500 * times() {
        let (pool, table) = sound_store(&mut random);
        let capacities = Capacities::of_table(&table).expect("a sound store");
        let list = List::new(&mut random, capacities, Style { retires: 20, kinds: 4 });
        let mut course = Course::from_store(&pool, &table, stores());
        for _ in 0..40 {
            let (user, call) = list.next(&mut random, &course);
            if matches!(call, Call::Offer { .. } | Call::Sent { .. }) {
                let letter = if matches!(call, Call::Offer { .. }) { 'f' } else { 'm' };
                *met.entry((letter, course.call_by(user, &call)[0])).or_default() += 1;
            }
        }
        inspect(course.buffers().0, course.buffers().1, course.keeper());
    }
    println!("{met:?}");
    let wanted = [('f', 0), ('f', 3), ('f', 4), ('m', 0), ('m', 3), ('m', 4), ('m', 11), ('m', 12), ('m', 14)];
    let wanted = wanted.into_iter().chain([('m', 16), ('m', 19), ('m', 20)]);
    wanted.into_iter().for_each(|one| assert!(met.get(&one).is_some_and(|&often| often > 5), "{one:?} of {met:?}"));
}
