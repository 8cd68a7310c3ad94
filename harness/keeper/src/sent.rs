//! Sending only what the box lacks, each case worked out by hand from the pages. `earlier` makes the backups from before
//! blank blocks were known.

use crate::collision;
use crate::trial::{letters, Trial};
use terms::{fingerprint, Backup, Calls, Capacities, Sending, OWNER};

/// Two tills, images of four segments.
const CAPACITIES: Capacities = Capacities::new(2, 9, 32, 8, 64);

/// A message, its SHA-1 and where both are published.
type Vector = (Vec<u8>, [u32; 5], &'static str);

/// The published vectors.
fn vectors() -> [Vector; 7] {
    let of = |text: &str| text.as_bytes().to_vec();
    let (four, eight) =
        ("abcdbcdecdefdefgefghfghighijhijkijkljklmklmnlmnomnopnopq", "abcdefghbcdefghicdefghijdefghijk");
    let eight = format!("{eight}efghijklfghijklmghijklmnhijklmnoijklmnopjklmnopqklmnopqrlmnopqrsmnopqrstnopqrstu");
    [
        (of("abc"), [0xa999_3e36, 0x4706_816a, 0xba3e_2571, 0x7850_c26c, 0x9cd0_d89d], "RFC 3174, FIPS 180"),
        (of(four), [0x8498_3e44, 0x1c3b_d26e, 0xbaae_4aa1, 0xf951_29e5, 0xe546_70f1], "RFC 3174, FIPS 180, 448 bits"),
        (
            vec![b'a'; 1_000_000],
            [0x34aa_973c, 0xd4c4_daa4, 0xf61e_eb2b, 0xdbad_2731, 0x6534_016f],
            "RFC 3174, FIPS 180",
        ),
        (of(&"01234567".repeat(80)), [0xdea3_56a2, 0xcddd_90c7, 0xa7ec_edc5, 0xebb5_6393, 0x4f46_0452], "RFC 3174"),
        (of(""), [0xda39_a3ee, 0x5e6b_4b0d, 0x3255_bfef, 0x9560_1890, 0xafd8_0709], "FIPS 180, no bits"),
        (of(&eight), [0xa49b_2446, 0xa02c_645b, 0xf419_f995, 0xb670_9125, 0x3a04_a259], "FIPS 180, 896 bits"),
        (of("a"), [0x86f7_e437, 0xfaa5_a7fc, 0xe15d_1ddc, 0xb9ea_eaea, 0x3776_67b8], "RFC 3174's program"),
    ]
}

pub fn published_vectors(store: &dyn Calls) {
    for (message, words, source) in vectors() {
        assert_eq!(store.sha1(&message), words, "{} bytes, {source}", message.len());
    }
}

/// A box, and till 1 that sends to it.
struct Line<'a> {
    store: &'a dyn Calls,
    trial: Trial<'a>,
}

impl<'a> Line<'a> {
    fn new(store: &'a dyn Calls) -> Line<'a> {
        Line { store, trial: Trial::new(store, CAPACITIES) }
    }

    /// The message that has all segments of an image.
    fn whole(&self, image: &[u8]) -> Sending {
        Sending::whole(image, 512, |segment| fingerprint(self.store.sha1(segment)))
    }

    /// The same with these marks, and only the segments that they want.
    fn with(&self, image: &[u8], marks: &[u8]) -> Sending {
        let whole = self.whole(image);
        let sent = whole.segments.chunks(512).zip(marks).filter(|(_, &mark)| mark == 1);
        let segments = sent.flat_map(|(segment, _)| segment.to_vec()).collect();
        Sending { marks: marks.to_vec(), segments, ..whole }
    }

    /// The marks that a till gets for an image.
    fn marks(&self, image: &[u8]) -> Vec<u8> {
        let fingerprints = self.whole(image).fingerprints;
        let mut marks = vec![9; fingerprints.len() / 20];
        assert_eq!(self.store.offer(&self.trial.pool, &self.trial.table, OWNER, 1, &fingerprints, &mut marks), [0]);
        marks
    }

    fn marks_of(&self, text: &str) -> Vec<u8> {
        self.marks(&letters(text, 64))
    }

    /// Sends a message of till 1; a refusal leaves the store as it was.
    fn send(&mut self, sending: &Sending) -> [u32; 2] {
        let Trial { pool, table, .. } = &mut self.trial;
        let before = (pool.clone(), table.clone());
        let answer = self.store.backup_sent(pool, table, OWNER, 1, sending.message());
        assert!(answer[0] == 0 || (answer[1] == 0 && before == (pool.clone(), table.clone())), "altered");
        answer
    }

    /// Sends letters with these marks.
    fn send_of(&mut self, text: &str, marks: &[u8]) -> [u32; 2] {
        let sending = self.with(&letters(text, 64), marks);
        self.send(&sending)
    }

    /// Till 1's version.
    fn image(&self, version: u32) -> Vec<u8> {
        let mut image = vec![0; CAPACITIES.image_bytes()];
        let [refusal, length, _] =
            self.store.restore(&self.trial.pool, &self.trial.table, OWNER, 1, version, &mut image);
        assert_eq!(refusal, 0);
        image.truncate(length as usize);
        image
    }
}

/// What is marked: the zero segment and whole records, of any till, byte for byte.
pub fn marked(store: &dyn Calls) {
    let mut one = Line::new(store);
    assert_eq!(one.marks_of("ABCDEFGH........"), [0, 1]);
    assert_eq!(one.trial.file("ABCDEFGHab"), [0, 1]);
    assert_eq!(one.marks_of("ABCDEFGHab......ABCDEFGZ........"), [1, 1, 0, 1]);
    assert_eq!(one.marks_of("ABCDEFGHab"), [1, 1]);
    assert_eq!(one.marks_of("ABCDEFGab.......BACDEFGH"), [0, 0, 0]);
    // The last segment is filled up with zeros; one byte less is another segment.
    assert_eq!((one.marks(&letters("ab", 64)), one.marks(&letters("ab", 64)[..127])), (vec![1], vec![0]));
    // A blank position is content as any other; blanks and zeros alone have no record.
    assert_eq!(one.trial.file("A#.B"), [0, 2]);
    assert_eq!(one.marks_of("A#.B....A..B....########.#......"), [1, 0, 0, 0]);
    // A and B of version 1 have turned indirect: a record that lost a position serves nobody.
    assert_eq!((one.marks_of("ABCDEFGH"), one.marks_of("ab")), (vec![0], vec![1]));
    assert_eq!((one.trial.retire(1), one.marks_of("ab")), ([0, 640], vec![0]));
}

/// What is not sent is zeros, was sent earlier in the call, or is a record's.
pub fn sent_or_had(store: &dyn Calls) {
    let mut one = Line::new(store);
    assert_eq!((one.send_of("........", &[0]), one.trial.tally()), ([0, 1], [0; 4]));
    assert_eq!(one.send_of("ABCDEFGHABCDEFGH", &[0, 1]), [20, 0], "sent later only");
    assert_eq!(one.send_of("ABCDEFGHABCDEFGH", &[0, 0]), [20, 0]);
    assert_eq!((one.send_of("ABCDEFGHABCDEFGH", &[1, 0]), one.trial.tally()), ([0, 2], [0, 8, 1, 16]));
    assert_eq!(one.image(2), letters("ABCDEFGHABCDEFGH", 64));
    assert_eq!(one.send_of("ab......ABCDEFGH........ab", &[1, 0, 0, 0]), [0, 3]);
    assert_eq!(one.image(3), letters("ab......ABCDEFGH........ab", 64));
    // Sent though it is had: the same.
    assert_eq!(one.send_of("........ABCDEFGHab......ABCDEFGH", &[1, 1, 1, 1]), [0, 4]);
    assert_eq!((one.image(4), one.trial.tally()), (letters("........ABCDEFGHab......ABCDEFGH", 64), [0, 10, 2, 18]));
    // A segment of 255s has no record: it has to be sent each time.
    assert_eq!((one.send_of("########", &[0]), one.send_of("########", &[1])), ([20, 0], [0, 5]));
    assert_eq!((one.marks_of("########"), one.send_of("########", &[0])), (vec![0], [20, 0]));
    assert_eq!((one.image(5), one.send_of("", &[])), (letters("########", 64), [4, 0]));
}

/// Another fingerprint, and bytes past the length, in a segment that was sent, was sent earlier, is a record's.
pub fn nineteen(store: &dyn Calls) {
    let mut one = Line::new(store);
    let image = letters("AAAAAAAAAAAAAAAA", 64);
    for bit in 0..160 {
        let mut sending = one.with(&image, &[1, 1]);
        sending.fingerprints[20 + bit / 8] ^= 1 << (bit % 8);
        assert_eq!(one.send(&sending), [19, 0], "bit {bit}");
    }
    let mut other = one.with(&image, &[1, 0]);
    other.segments[511] ^= 1;
    assert_eq!(one.send(&other), [19, 0]);
    // One byte too few, then so few that another block is.
    for less in [1, 63, 64, 65, 511] {
        let shorter = |sending: Sending| Sending { length: sending.length - less, ..sending };
        let (both, first) = (shorter(one.with(&image, &[1, 1])), shorter(one.with(&image, &[1, 0])));
        assert_eq!((one.send(&both), one.send(&first)), ([19, 0], [19, 0]), "{less} bytes less");
    }
    assert_eq!(one.send_of("AAAAAAAAAAAAAAAA", &[1, 0]), [0, 1]);
    let had = Sending { length: 1_023, ..one.with(&image, &[0, 0]) };
    assert_eq!((one.send(&had), one.send_of("AAAAAAAAAAAAAAAA", &[0, 0])), ([19, 0], [0, 2]));
    // Zeros past the length are no fault, sent or had.
    for length in [1_025, 1_088, 1_535] {
        let image = [&image[..], &vec![0; length - 1_024]].concat();
        let (sent, had) = (one.with(&image, &[0, 0, 1]), one.with(&image, &[0, 0, 0]));
        assert_eq!((one.send(&sent)[0], one.send(&had)[0]), (0, 0), "{length}");
        let last = one.store.listing(&one.trial.pool, &one.trial.table, OWNER, 1)[2];
        assert!(one.image(last) == image && one.image(last - 1) == image, "{length}");
    }
}

/// 19 and 20 at the first segment that has either, and within one 19 first.
pub fn the_first_segment(store: &dyn Calls) {
    let mut one = Line::new(store);
    assert_eq!(one.trial.file("ABCDEFGH"), [0, 1]);
    let send = |one: &mut Line, marks: &[u8], wrong: &[usize], length: u32| {
        let mut sending = one.with(&letters("ABCDEFGHabcdefghijklmnopqrstuvwx", 64), marks);
        wrong.iter().for_each(|n| sending.fingerprints[20 * n] ^= 1);
        let answer = one.send(&Sending { length, ..sending });
        answer[0]
    };
    assert_eq!(send(&mut one, &[0, 1, 0, 1], &[3], 2_048), 20);
    assert_eq!(send(&mut one, &[0, 1, 0, 1], &[1], 2_048), 19);
    assert_eq!(send(&mut one, &[0, 0, 1, 1], &[2], 2_048), 20);
    assert_eq!(send(&mut one, &[1, 0, 1, 1], &[0], 2_048), 19);
    assert_eq!(send(&mut one, &[0, 1, 1, 0], &[], 2_047), 20, "nobody knows its bytes");
    assert_eq!(send(&mut one, &[0, 1, 1, 1], &[], 2_047), 19);
    assert_eq!(send(&mut one, &[0, 0, 1, 1], &[], 2_047), 20, "earlier than the last");
    assert_eq!(send(&mut one, &[0, 1, 1, 1], &[0], 2_048), 20, "a fingerprint that is nobody's");
    assert_eq!(send(&mut one, &[0, 1, 1, 1], &[], 2_048), 0);
}

/// A record that lost a position, and one with a cell of 255s from before, are not had and match nothing.
pub fn records_that_cannot_match(store: &dyn Calls, earlier: Backup) {
    let mut one = Line::new(store);
    assert_eq!((one.trial.file("ABCDEFGH"), one.trial.file("ABCDEFGZ")), ([0, 1], [0, 2]));
    // Of record 0 only H is left: neither what it had nor what it has is had.
    assert_eq!(one.marks_of("ABCDEFGHABCDEFGZ.......H"), [0, 1, 0]);
    assert_eq!(one.send_of("ABCDEFGHABCDEFGZ", &[0, 0]), [20, 0]);
    assert_eq!(one.send_of(".......H", &[0]), [20, 0]);
    assert_eq!(one.send_of("ABCDEFGHABCDEFGZ", &[1, 0]), [0, 1]);
    assert_eq!(one.image(1), letters("ABCDEFGHABCDEFGZ", 64));

    let mut one = Line::new(store);
    assert_eq!((one.trial.file_by(earlier, 0, "A#"), one.trial.tally()), ([0, 1], [0, 2, 1, 2]));
    assert_eq!((one.marks_of("A#"), one.send_of("A#", &[0])), (vec![0], [20, 0]));
    assert_eq!((one.send_of("A#", &[1]), one.trial.tally()), ([0, 1], [0, 3, 2, 3]));
    // The new record has a blank position and is had.
    assert_eq!((one.marks_of("A#"), one.send_of("A#", &[0]), one.image(2)), (vec![1], [0, 2], letters("A#", 64)));
}

/// Two different segments with one fingerprint show which is taken: the lowest sent earlier, then the lowest record. What
/// is filed is what was put together, which then is not what the till has.
pub fn two_with_one_fingerprint(store: &dyn Calls) {
    let [x, y] = &collision::segments(512);
    let mut one = Line::new(store);
    assert!(x != y && one.whole(x).fingerprints == one.whole(y).fingerprints);
    let image = |segments: &[&Vec<u8>]| segments.iter().flat_map(|segment| segment.to_vec()).collect::<Vec<u8>>();
    let sent = |one: &mut Line, segments: &[&Vec<u8>], marks: &[u8]| {
        let sending = one.with(&image(segments), marks);
        let [refusal, version] = one.send(&sending);
        assert_eq!(refusal, 0);
        one.image(version)
    };
    // The lowest sent.
    assert_eq!(sent(&mut one, &[x, y, y], &[1, 1, 0]), image(&[x, y, x]));
    // Records 0 and 1 are x and y: the lowest, whatever the till has.
    assert_eq!(one.marks(&image(&[y, x])), [1, 1]);
    assert_eq!(sent(&mut one, &[y, x], &[0, 0]), image(&[x, x]));
    // One sent earlier comes before any record; one sent later does not.
    assert_eq!(sent(&mut one, &[y, x, x], &[0, 1, 0]), image(&[x, x, x]));
    assert_eq!(sent(&mut one, &[x, y, x], &[0, 1, 0]), image(&[x, y, y]));
    // A full backup goes by bytes: y, of which record 1 has lost nothing, is not x.
    assert_eq!(one.store.backup(&mut one.trial.pool, &mut one.trial.table, OWNER, 1, &image(&[y, y])), [0, 5]);
    assert_eq!(one.image(5), image(&[y, y]));
}

/// At every size of a block and of a segment: sent, had, zeros, and a last segment of one byte.
pub fn every_size(store: &dyn Calls, bytes: u32, blocks: u32) {
    let capacities = Capacities::new(1, 4, 4 * blocks, 8, 8 * blocks).measured([bytes, blocks, 20]);
    let mut one = Trial::new(store, capacities);
    let segment = capacities.segment_bytes();
    let mut image: Vec<u8> = (0..segment).flat_map(|n| (1 + n * n % 251).to_le_bytes()).take(segment).collect();
    image.extend(vec![0; segment]);
    image.extend_from_within(..segment);
    image.push(b'e');
    let print = |segment: &[u8]| fingerprint(store.sha1(segment));
    let whole = Sending::whole(&image, segment, print);
    for expected in [[0, 1, 0, 0], [1, 1, 1, 1]] {
        let mut marks = [9; 4];
        assert_eq!(store.offer(&one.pool, &one.table, OWNER, 0, &whole.fingerprints, &mut marks), [0]);
        assert_eq!(marks, expected, "{bytes} x {blocks}");
        let sending = whole.lacking(&marks);
        assert_eq!(sending.segments.len(), if expected[0] == 0 { 2 * segment } else { 0 });
        assert_eq!(store.backup_sent(&mut one.pool, &mut one.table, OWNER, 0, sending.message())[0], 0);
    }
    for version in [1, 2] {
        let mut output = vec![0; image.len()];
        assert_eq!(store.restore(&one.pool, &one.table, OWNER, 0, version, &mut output)[..2], [0, image.len() as u32]);
        assert!(output == image, "{bytes} x {blocks}");
    }
}
