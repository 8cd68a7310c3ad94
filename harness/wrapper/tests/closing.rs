//! All tills at closing, as a program makes one.

use lurdempos::{Calls, Capacities, Closing, Collected, Proved, Refusal, Store, MOST_IMAGES, OWNER};

fn small() -> Store {
    Store::new(Capacities::new(2, 4, 16, 8, 32)).expect("good capacities")
}

#[test]
fn one_call_for_all() {
    let mut store = small();
    let image: Vec<u8> = (0..700).map(|n| n as u8).collect();
    let (mut single, day) = (store.clone(), [(1, &image[..]), (0, &image[..650]), (1, &image[..600])]);
    assert_eq!(store.backup_all(OWNER, &day), Ok(vec![Ok(1), Ok(1), Ok(2)]));
    day.iter().for_each(|&(till, image)| assert!(single.backup(OWNER, till, image).is_ok()));
    assert!(store == single, "another store than that of single backups");
    assert_eq!(store.image(OWNER, 1, 1).as_deref(), Ok(&image[..]));
    assert_eq!(store.image(OWNER, 1, 2).as_deref(), Ok(&image[..600]));
    assert_eq!(store.backup_all(OWNER, &[]), Ok(vec![]));
    assert!(store == single);
}

/// What is refused does not stop the others.
#[test]
fn refusals_by_name() {
    let mut store = small();
    let day = [(0, &[1; 9][..]), (2, &[1; 9]), (0, &[]), (1, &[1; 1_025]), (0, &[2; 9]), (0, &[3; 9]), (0, &[4; 9])];
    let day = [&day[..], &[(0, &[5; 9]), (1, &[6; 9])]].concat();
    let (till, length, full) = (Err(Refusal::NoSuchTill), Err(Refusal::ImageLength), Err(Refusal::TillFull));
    let said = vec![Ok(1), till, length, length, Ok(2), Ok(3), Ok(4), full, Ok(1)];
    assert_eq!(store.backup_all(OWNER, &day), Ok(said));
    assert_eq!(store.image(OWNER, 0, 4), Ok(vec![4; 9]));
    let before = store.clone();
    let many = store.backup_all(OWNER, &[(1, &[1; 9][..]); MOST_IMAGES + 1]).unwrap_err();
    let words = "refused, 4: image empty, or longer than block size × blocks per image, \
                 or lists of a message or a closing that do not fit";
    assert_eq!((many.to_string().as_str(), store == before), (words, true));
}

/// Lists of any kind, on lent buffers.
#[test]
fn lists_that_do_not_fit() {
    let (mut pool, mut table) = small().into_parts();
    let mut say = |closing: Closing| Proved.backup_all(&mut pool, &mut table, OWNER, closing)[0];
    let (tills, lengths, images) = (&[0, 1][..], &[9, 9][..], &[7; 18][..]);
    assert_eq!(say(Closing { tills: &[0], lengths, images }), 4);
    assert_eq!(say(Closing { tills, lengths: &[18], images }), 4);
    assert_eq!(say(Closing { tills, lengths, images: &[7; 17] }), 4);
    assert_eq!(say(Closing { tills, lengths: &[u32::MAX, 19], images }), 4);
    assert_eq!(say(Closing { tills, lengths, images }), 0);
    pool[64 * 31] = 1;
    assert_eq!(Proved.backup_all(&mut pool, &mut table, OWNER, Closing { tills: &[0], lengths, images })[..2], [10, 0]);
}

/// As much stack as include/lurdempos.h asks for is enough for 16 of the longest images.
#[test]
fn in_512_kib_of_stack() {
    let capacities = Capacities::largest([64, 8, 20]);
    let image = |n: u32| (0..65_536).map(|at: u32| ((at ^ n << 20).wrapping_mul(2_654_435_761) >> 13) as u8).collect();
    let images: Vec<Vec<u8>> = (0..16).map(image).collect();
    let call = move || {
        let (mut pool, mut table) = Store::new(capacities).unwrap().into_parts();
        let collected = Collected::of((0..).zip(&images).map(|(till, image)| (till, &image[..])));
        let answer = Proved.backup_all(&mut pool, &mut table, OWNER, collected.closing());
        assert_eq!((&answer[..17], &answer[17..]), (&[0; 17][..], &[1; 16][..]));
    };
    std::thread::Builder::new().stack_size(512 << 10).spawn(call).unwrap().join().unwrap();
}
