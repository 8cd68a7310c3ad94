//! A version moved from one store to another, as a program does it.

use lurdempos::{image_of_stream, read_stream, Capacities, Refusal, Store, LONGEST_STREAM, OWNER};

#[test]
fn a_version_moves_to_a_store_of_other_measures() {
    let mut from = Store::new(Capacities::new(1, 2, 16, 4, 32)).unwrap();
    let mut to = Store::new(Capacities::new(6, 4, 8, 4, 32).measured([128, 4, 50])).unwrap();
    let image = [&[7; 64][..], &[0; 128], &[9; 100]].concat();
    from.backup(OWNER, 0, &image).unwrap();
    let stream = from.stream(OWNER, 0, 1).unwrap();
    // 292 bytes: blocks 0, 3 and 4, the last filled up with zeros.
    assert_eq!(stream[..5], [36, 1, 0, 0, 0b11001]);
    assert_eq!(stream.len(), 5 + 3 * 64);
    assert_eq!(to.backup(OWNER, 5, &image_of_stream(&stream).unwrap()), Ok(1));
    assert_eq!(to.image(OWNER, 5, 1), Ok(image));
    assert_eq!(to.stream(OWNER, 5, 1), Ok(stream));
}

#[test]
fn the_longest_stream() {
    let mut store = Store::new(Capacities::LARGEST).unwrap();
    let image: Vec<u8> = (0..65_536u32).map(|n| 1 + (n % 255) as u8).collect();
    store.backup(OWNER, 0, &image).unwrap();
    let stream = store.stream(OWNER, 0, 1).unwrap();
    assert_eq!(stream.len(), LONGEST_STREAM);
    assert_eq!(image_of_stream(&stream), Ok(image));
    let mut short = vec![0; LONGEST_STREAM - 1];
    assert_eq!(store.write_stream(OWNER, 0, 1, &mut short), Err(Refusal::ShortOutput));
    assert!(short.iter().all(|&byte| byte == 0));
}

#[test]
fn refusals_by_name() {
    let words = |stream: &[u8], room: usize| read_stream(stream, &mut vec![0; room]).unwrap_err().to_string();
    assert_eq!(words(&[1, 0, 0], 1), "refused, 24: a stream too short or too long");
    assert_eq!(words(&[0, 0, 0, 0], 1), "refused, 25: a stream with a length of 0 or above 65,536");
    let bits =
        "refused, 26: a stream with a bit on a null or missing block, or a byte other than zero after the length";
    assert_eq!(words(&[1, 0, 0, 0, 2], 1), bits);
    let short = "refused, 5: output shorter than the version, its stream or a stream's image";
    assert_eq!(words(&[1, 0, 0, 0, 0], 0), short);
}
