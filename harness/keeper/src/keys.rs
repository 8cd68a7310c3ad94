//! Keys for staff, each case worked out by hand from the pages. The course puts every call to all stores and has the
//! keeper judge it too.

use crate::course::{answer, Lane};
use crate::staff::UNKNOWN;
use crate::trial::letters;
use crate::{Call, Course};
use terms::{fingerprint, Calls, Capacities, Collected, Right, Rights, Sending, LONGEST_STREAM, OWNER, USERS};

/// Who makes the stores that are put to the test, the first of them to be compared with the others.
pub type Stores = fn() -> Vec<Box<dyn Calls>>;

const CAPACITIES: Capacities = Capacities::new(2, 6, 16, 16, 64);

/// Where the words of rights of tills 0 and 1 stand.
const RIGHTS: [usize; 2] = [10, 10 + 4 + 6 * 19];

/// A store in which both tills hold two versions, with days.
fn shop(stores: Stores) -> Course {
    let mut course = Course::new(CAPACITIES, stores());
    for (till, day, text) in [(0, 5, "ABCDEFGH"), (0, 6, "ABCDEFGZ"), (1, 5, "ABCDEFGH"), (1, 7, "abc")] {
        assert_eq!(course.call(&Call::Dated { till, day, image: letters(text, 64) })[0], 0);
    }
    course
}

/// The same again, with what one user may do on a till.
fn again(course: &Course, stores: Stores, subject: u32, till: u32, rights: Rights) -> Course {
    let mut course = Course::from_store(course.buffers().0, course.buffers().1, stores());
    assert_eq!(course.call(&Call::SetRights { subject, till, rights })[0], 0);
    course
}

/// The message of which all segments follow.
fn sent(stores: Stores, text: &str) -> Sending {
    let store = &stores()[0];
    Sending::whole(&letters(text, 64), 512, |segment| fingerprint(store.sha1(segment)))
}

/// One call of every sort on a till, with the right that it needs and with which it is accepted.
fn every_sort(stores: Stores, till: u32) -> Vec<(Call, Right)> {
    let (image, sending) = (letters("ABCDEFGQ", 64), sent(stores, "ABCDEFGQ"));
    let (version, fingerprints) = (1, sending.fingerprints.clone());
    vec![
        (Call::Listing { till }, Right::List),
        (Call::VersionOn { till, day: 5 }, Right::List),
        (Call::Backup { till, image: image.clone() }, Right::BackUp),
        (Call::Dated { till, day: 9, image }, Right::BackUp),
        (Call::Offer { till, fingerprints, room: 1 }, Right::BackUp),
        (Call::Sent { till, sending }, Right::BackUp),
        (Call::Restore { till, version, room: 1_024 }, Right::Restore),
        (Call::WriteStream { till, version, room: LONGEST_STREAM }, Right::Restore),
        (Call::Retire { till, version }, Right::Retire),
    ]
}

/// The same with something else wrong, and what that is answered.
fn every_wrong_sort(stores: Stores, till: u32) -> Vec<(Call, u32)> {
    let sending = sent(stores, "ABCDEFGQ");
    let other = Sending { fingerprints: vec![7; 20], ..sending.clone() };
    let lacking = Sending { marks: vec![0], segments: vec![], ..sending.clone() };
    vec![
        (Call::VersionOn { till, day: 4 }, 29),
        (Call::Backup { till, image: vec![] }, 4),
        (Call::Backup { till, image: vec![7; 1_025] }, 4),
        (Call::Dated { till, day: 4, image: vec![] }, 4),
        (Call::Dated { till, day: 4, image: vec![7] }, 28),
        (Call::Offer { till, fingerprints: vec![], room: 0 }, 4),
        (Call::Sent { till, sending: Sending { length: 0, ..sending } }, 4),
        (Call::Sent { till, sending: other }, 19),
        (Call::Sent { till, sending: lacking }, 20),
        (Call::Restore { till, version: 0, room: 0 }, 17),
        (Call::Restore { till, version: 1, room: 511 }, 5),
        (Call::WriteStream { till, version: 9, room: 0 }, 17),
        (Call::WriteStream { till, version: 1, room: 0 }, 5),
        (Call::Retire { till, version: u32::MAX }, 17),
    ]
}

/// All sixteen ways of having rights.
fn all_rights() -> impl Iterator<Item = (u32, Rights)> {
    (0..16).map(|bits| (bits, Rights::of_word(bits, 1)))
}

/// Every call by every user with each of the sixteen ways: accepted with the right that it needs, also with that one
/// alone, and with 23 else, also with the three others and on the other till.
pub fn every_right(stores: Stores) {
    let before = shop(stores);
    for (call, needed) in every_sort(stores, 0) {
        for user in 1..USERS {
            for (_, rights) in all_rights() {
                let expected = if rights.has(needed) { 0 } else { 23 };
                let mut course = again(&before, stores, user, 0, rights);
                assert_eq!(course.call_by(user, &call)[0], expected, "user {user}, {rights:?}, {call:?}");
            }
        }
        let mut elsewhere = again(&before, stores, 3, 1, Rights::ALL);
        (1..USERS).for_each(|user| assert_eq!(elsewhere.call_by(user, &call)[0], 23, "{call:?}"));
        UNKNOWN.iter().for_each(|&user| assert_eq!(elsewhere.call_by(user, &call)[0], 22, "{call:?}"));
        assert_eq!(elsewhere.call(&call)[0], 0, "{call:?}");
    }
}

/// A till that is not there comes before an unknown user, that before a right that is missing, and that before all that
/// is wrong with a version, a day, an image, a message or an output.
pub fn in_order(stores: Stores) {
    let mut course = again(&shop(stores), stores, 2, 0, Rights::ALL);
    for (call, refusal) in every_wrong_sort(stores, 0) {
        for (user, expected) in [(OWNER, refusal), (2, refusal), (1, 23), (7, 23), (8, 22), (99, 22), (u32::MAX, 22)] {
            assert_eq!(course.call_by(user, &call)[0], expected, "user {user}, {call:?}");
        }
    }
    for till in [2, 16, u32::MAX] {
        let right = every_sort(stores, till).into_iter().map(|(call, _)| call);
        for call in right.chain(every_wrong_sort(stores, till).into_iter().map(|(call, _)| call)) {
            [OWNER, 1, 2, 8, 99, u32::MAX].iter().for_each(|&user| assert_eq!(course.call_by(user, &call)[0], 3));
        }
    }
}

/// The tally, the bill and the changes of rights are the owner's, whatever rights others have.
pub fn of_the_owner(stores: Stores) {
    let mut course = shop(stores);
    for (subject, till) in (1..USERS).flat_map(|subject| [(subject, 0), (subject, 1)]) {
        assert_eq!(course.call(&Call::SetRights { subject, till, rights: Rights::ALL })[0], 0);
    }
    for call in [Call::Tally, Call::Bill { price: 1 }] {
        assert_eq!(course.call(&call)[0], 0);
        (1..USERS).for_each(|user| assert_eq!(course.call_by(user, &call), [23, 0, 0, 0]));
        UNKNOWN.iter().for_each(|&user| assert_eq!(course.call_by(user, &call), [22, 0, 0, 0]));
    }
    for user in [0, 1, 7, 8, u32::MAX] {
        for subject in [0, 1, 6, 7, 8, u32::MAX] {
            for (till, rights) in [(0, Rights::NONE), (1, Rights::ALL), (2, Rights::ALL), (u32::MAX, Rights::NONE)] {
                let expected = match (user, subject) {
                    _ if till > 1 => 3,
                    (8.., _) | (_, 0 | 8..) => 22,
                    (1.., _) => 23,
                    (OWNER, _) => 0,
                };
                let said = course.call_by(user, &Call::SetRights { subject, till, rights })[0];
                assert_eq!(said, expected, "user {user}, subject {subject}, till {till}");
            }
        }
    }
}

/// Images of one closing, each for its till, with what each is answered.
type Answered<'a> = [(u32, &'a [u8], [u32; 2])];

fn close(course: &mut Course, user: u32, images: &Answered) {
    let collected = Collected::of(images.iter().map(|&(till, image, _)| (till, image)));
    let (numbers, _) = course.answered(user, &Call::All(collected));
    for (n, (till, image, expected)) in images.iter().enumerate() {
        let said = [numbers[1 + n], numbers[17 + n]];
        assert_eq!((numbers[0], said), (0, *expected), "user {user}, image {n}, till {till}, {} bytes", image.len());
    }
}

/// In a closing each image is refused by itself, with 3, 22 or 23 before anything that is wrong with it; the lists come
/// before all users. Nobody is asked who he is for no images at all.
pub fn in_a_closing(stores: Stores) {
    let mut course = again(&shop(stores), stores, 3, 1, Rights::only(Right::BackUp));
    let (a, long) = (&[7; 64][..], &[7; 1_025][..]);
    close(
        &mut course,
        3,
        &[(0, a, [23, 0]), (1, a, [0, 3]), (2, a, [3, 0]), (0, &[], [23, 0]), (1, &[], [4, 0]), (2, &[], [3, 0])],
    );
    close(&mut course, 3, &[(0, long, [23, 0]), (1, long, [4, 0]), (1, a, [0, 4])]);
    close(&mut course, 4, &[(0, a, [23, 0]), (1, &[], [23, 0]), (2, long, [3, 0])]);
    for user in UNKNOWN {
        close(&mut course, user, &[(0, a, [22, 0]), (1, a, [22, 0]), (2, a, [3, 0]), (0, &[], [22, 0])]);
        close(&mut course, user, &[]);
    }
    close(&mut course, OWNER, &[(0, a, [0, 3]), (1, a, [0, 5]), (2, a, [3, 0])]);
    for user in [OWNER, 3, 4, 8, u32::MAX] {
        let misfit = Collected { tills: vec![0, 2], lengths: vec![64], images: vec![7; 64] };
        assert_eq!(course.call_by(user, &Call::All(misfit))[0], 4);
    }
}

/// A change replaces four bits of one word and leaves all others; it is seen by the next call.
pub fn four_bits(stores: Stores) {
    let before = shop(stores);
    for word in [0, 0x0fff_ffff, 0x0a5a_5a5a, 0x0123_4567] {
        let mut table = before.buffers().1.to_vec();
        table[RIGHTS[0]] = word;
        table[RIGHTS[1]] = !word & 0x0fff_ffff;
        for (subject, (bits, rights)) in (1..USERS).flat_map(|subject| all_rights().map(move |one| (subject, one))) {
            let mut course = Course::from_store(before.buffers().0, &table, stores());
            assert_eq!(course.call(&Call::SetRights { subject, till: 1, rights })[0], 0);
            let shift = 4 * (subject - 1);
            let mut expected = table.clone();
            expected[RIGHTS[1]] = table[RIGHTS[1]] & !(15 << shift) | bits << shift;
            assert!(course.buffers() == (before.buffers().0, &expected[..]), "user {subject}, {rights:?}");
        }
    }
}

/// Backups of every kind, retires, restores and refusals leave the rights as they are.
pub fn rights_stay(stores: Stores) {
    let before = shop(stores);
    let words = [0x0edc_ba98, 0x0123_4567];
    let mut table = before.buffers().1.to_vec();
    RIGHTS.iter().zip(words).for_each(|(&at, word)| table[at] = word);
    let mut course = Course::from_store(before.buffers().0, &table, stores());
    for till in [0, 1] {
        for (call, _) in every_sort(stores, till) {
            assert_eq!(course.call(&call)[0], 0, "{call:?}");
            assert_eq!(RIGHTS.map(|at| course.buffers().1[at]), words, "{call:?}");
        }
    }
    close(&mut course, OWNER, &[(0, &[1; 64], [0, 6]), (1, &[2; 64], [0, 6]), (1, &[], [4, 0])]);
    // Also where the last version of a till goes.
    for (till, version) in [(0, 2), (0, 3), (0, 4), (0, 5), (0, 6), (1, 2)] {
        assert_eq!(course.call(&Call::Retire { till, version })[0], 0);
    }
    assert_eq!(RIGHTS.map(|at| course.buffers().1[at]), words);
}

/// What every call of a user on a store is answered: 10, or else.
fn said(stores: Stores, pool: &[u8], table: &[u32], user: u32) -> Vec<u32> {
    let rights = Rights::ALL;
    let whole = [Call::Tally, Call::Bill { price: 1 }, Call::SetRights { subject: 1, till: 0, rights }];
    let images = Collected::of([(0, &[7; 9][..])]);
    let each = every_sort(stores, 0).into_iter().map(|(call, _)| call).chain(whole);
    let misfit = Collected { lengths: vec![], ..images.clone() };
    let calls: Vec<Call> = each.chain([Call::All(images), Call::All(misfit)]).collect();
    let lane = |store| Lane { store, pool: pool.to_vec(), table: table.to_vec() };
    let by_each = stores().into_iter().flat_map(|store| {
        let mut lane = lane(store);
        let answers: Vec<u32> = calls.iter().map(|call| answer(&mut lane, user, call).0[0]).collect();
        assert!(user < USERS || lane.pool == pool && lane.table == table, "altered by user {user}");
        answers
    });
    by_each.collect()
}

/// A word of rights is sound up to the bits of user 7, and the word behind it is zero; an unsound store is told first.
pub fn soundness(stores: Stores) {
    let shop = shop(stores);
    for at in RIGHTS {
        for (word, bit) in (0..2).flat_map(|word| (0..32).map(move |bit| (word, bit))) {
            let mut table = shop.buffers().1.to_vec();
            table[at + word] = 1 << bit;
            let is_sound = word == 0 && bit < 28;
            for user in [OWNER, 7, 99] {
                let said = said(stores, shop.buffers().0, &table, user);
                assert!(said.iter().all(|&number| (number == 10) != is_sound), "word {word}, bit {bit}: {said:?}");
            }
        }
        for (word, is_sound) in [((1 << 28) - 1, true), (1 << 28, false), (u32::MAX, false), (0xf000_0000, false)] {
            let mut table = shop.buffers().1.to_vec();
            table[at] = word;
            assert_eq!(said(stores, shop.buffers().0, &table, 99).contains(&10), !is_sound, "{word:x}");
        }
    }
}
