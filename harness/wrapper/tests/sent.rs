//! A till that sends only what the store lacks, as a program does it.

use lurdempos::{sending, sha1, Capacities, Message, Refusal, Sending, Store, OWNER};

#[test]
fn only_what_is_lacking() {
    let capacities = Capacities::new(2, 4, 32, 16, 64);
    let mut store = Store::new(capacities).unwrap();
    let mut image: Vec<u8> = (0..1_500).map(|n| (n % 251) as u8).collect();
    let whole = sending(&image, capacities);
    assert_eq!((whole.length, whole.fingerprints.len(), whole.segments.len()), (1_500, 60, 1_536));
    assert_eq!(whole.fingerprints[..20], sha1(&image[..512]));
    assert_eq!(store.offer(OWNER, 0, &whole.fingerprints), Ok(vec![0, 0, 0]));
    assert_eq!(store.backup_sent(OWNER, 0, whole.message()), Ok(1));
    // The next day another till has one byte more, and the last two segments are as they were.
    image[7] = 255;
    let whole = sending(&image, capacities);
    let marks = store.offer(OWNER, 1, &whole.fingerprints).unwrap();
    assert_eq!(marks, [0, 1, 1]);
    let lacking = whole.lacking(&marks);
    assert_eq!((lacking.marks.as_slice(), lacking.segments.as_slice()), (&[1, 0, 0][..], &image[..512]));
    let mut full = store.clone();
    assert_eq!((store.backup_sent(OWNER, 1, lacking.message()), full.backup(OWNER, 1, &image)), (Ok(1), Ok(1)));
    assert!(store == full, "another store than a full backup's");
    assert_eq!(store.image(OWNER, 1, 1), Ok(image));
}

#[test]
fn published_fingerprints() {
    let digits = |message: &[u8]| sha1(message).map(|byte| format!("{byte:02x}")).concat();
    assert_eq!(digits(b"abc"), "a9993e364706816aba3e25717850c26c9cd0d89d");
    assert_eq!(digits(b""), "da39a3ee5e6b4b0d3255bfef95601890afd80709");
}

#[test]
fn messages_as_bytes() {
    let capacities = Capacities::new(1, 4, 32, 16, 64).measured([64, 4, 20]);
    let mut store = Store::new(capacities).unwrap();
    let bytes = sending(&[7; 300], capacities).to_bytes();
    assert_eq!(bytes.len(), 4 + 2 * 20 + 2 + 2 * 256);
    let message = Message::of_bytes(&bytes, capacities.segment_bytes());
    assert_eq!(store.backup_sent(OWNER, 0, message), Ok(1));
    assert_eq!(store.image(OWNER, 0, 1), Ok(vec![7; 300]));
}

/// As much stack as include/lurdempos.h asks for is enough for the longest messages.
#[test]
fn in_512_kib_of_stack() {
    let capacities = Capacities::largest([64, 4, 20]);
    let image: Vec<u8> = (0..65_536u32).map(|n| (n.wrapping_mul(2_654_435_761) >> 13) as u8).collect();
    let call = move || {
        let mut store = Store::new(capacities).unwrap();
        let whole = sending(&image, capacities);
        assert_eq!(store.offer(OWNER, 0, &whole.fingerprints), Ok(vec![0; 256]));
        assert_eq!(store.backup_sent(OWNER, 0, whole.message()), Ok(1));
        assert_eq!(store.backup_sent(OWNER, 0, whole.lacking(&[1; 256]).message()), Ok(2));
    };
    std::thread::Builder::new().stack_size(512 << 10).spawn(call).unwrap().join().unwrap();
}

#[test]
fn refusals_by_name() {
    let capacities = Capacities::new(1, 4, 32, 16, 64);
    let mut store = Store::new(capacities).unwrap();
    let whole = sending(&[7; 600], capacities);
    assert_eq!(store.offer(OWNER, 1, &whole.fingerprints), Err(Refusal::NoSuchTill));
    assert_eq!(store.offer(OWNER, 0, &whole.fingerprints[..39]), Err(Refusal::ImageLength));
    assert_eq!(store.offer(OWNER, 0, &[]), Err(Refusal::ImageLength));
    let unknown = store.backup_sent(OWNER, 0, whole.lacking(&[1, 0]).message()).unwrap_err();
    assert_eq!(unknown.to_string(), "refused, 20: a segment neither sent nor had");
    let other = Sending { length: 599, ..whole.clone() };
    let other = store.backup_sent(OWNER, 0, other.message()).unwrap_err();
    let words = "refused, 19: a sent segment with another fingerprint, \
                 or a sent or had one with a byte other than zero after the length";
    assert_eq!(other.to_string(), words);
    let misfit = store.backup_sent(OWNER, 0, Sending { length: 1_600, ..whole }.message()).unwrap_err();
    let words = "refused, 4: image empty, or longer than block size × blocks per image, \
                 or lists of a message or a closing that do not fit";
    assert_eq!(misfit.to_string(), words);
    assert_eq!(store, Store::new(capacities).unwrap());
}
