//! Versions by their day, as a program keeps and finds them.

use lurdempos::{Calls, Capacities, Proved, Refusal, Store, OWNER};

fn small() -> Store {
    Store::new(Capacities::new(2, 4, 16, 8, 32)).expect("good capacities")
}

#[test]
fn a_version_of_a_day() {
    let mut store = small();
    let image: Vec<u8> = (0..700).map(|n| n as u8).collect();
    assert_eq!(store.backup_dated(OWNER, 1, 20_000, &image), Ok(1));
    assert_eq!(store.backup_dated(OWNER, 1, 20_000, &image[..650]), Ok(2));
    assert_eq!(store.backup_dated(OWNER, 1, 20_003, &image[..600]), Ok(3));
    assert_eq!(store.version_on(OWNER, 1, 20_000), Ok(2));
    assert_eq!(
        store.version_on(OWNER, 1, 20_002).and_then(|version| store.image(OWNER, 1, version)).as_deref(),
        Ok(&image[..650])
    );
    assert_eq!(store.version_on(OWNER, 1, u32::MAX), Ok(3));
    // Without a day it is that of the newest.
    assert_eq!((store.backup(OWNER, 1, &image), store.version_on(OWNER, 1, 20_003)), (Ok(4), Ok(4)));
    // The newest goes, and then its older neighbour.
    assert_eq!((store.retire(OWNER, 1, 4), store.retire(OWNER, 1, 3)), (Ok(700), Ok(600)));
    assert_eq!((store.version_on(OWNER, 1, 20_003), store.backup_dated(OWNER, 1, 20_001, &image)), (Ok(2), Ok(5)));
}

/// The store is that of plain backups but for the days.
#[test]
fn only_the_day_differs() {
    let (mut dated, mut plain) = (small(), small());
    for (day, length) in [(7, 700), (7, 650), (9, 1_000)] {
        let image: Vec<u8> = (0..length).map(|n| n as u8).collect();
        assert_eq!(dated.backup_dated(OWNER, 0, day, &image), plain.backup(OWNER, 0, &image));
    }
    assert_eq!(dated.pool(), plain.pool());
    let (pool, mut table) = dated.into_parts();
    assert_eq!([14, 33, 52].map(|at| table[at]), [7, 7, 9]);
    [14, 33, 52].iter().for_each(|&at| table[at] = 0);
    assert_eq!(Store::from_parts(pool, table), Ok(plain));
}

#[test]
fn refusals_by_name() {
    let mut store = small();
    let none = store.version_on(OWNER, 0, u32::MAX).unwrap_err();
    assert_eq!(none.to_string(), "refused, 29: no held version is as early as that day");
    assert_eq!(store.backup_dated(OWNER, 0, 5, &[1; 9]), Ok(1));
    let before = store.clone();
    let early = store.backup_dated(OWNER, 0, 4, &[2; 9]).unwrap_err();
    assert_eq!(early.to_string(), "refused, 28: a day before that of the till's newest held version");
    assert_eq!(store.backup_dated(OWNER, 0, 4, &[]), Err(Refusal::ImageLength));
    assert_eq!(store.backup_dated(OWNER, 2, 4, &[2; 9]), Err(Refusal::NoSuchTill));
    assert_eq!(
        (store.version_on(OWNER, 0, 4), store.version_on(OWNER, 2, 4)),
        (Err(Refusal::NoneSoEarly), Err(Refusal::NoSuchTill))
    );
    assert!(store == before, "altered though refused");
}

/// On lent buffers: any day of a version is sound, and a day where there is no version is not.
#[test]
fn days_in_the_table() {
    let mut store = small();
    assert_eq!(store.backup(OWNER, 0, &[1; 9]), Ok(1));
    let (mut pool, mut table) = store.into_parts();
    table[14] = u32::MAX;
    assert_eq!(Proved.version_on(&pool, &table, OWNER, 0, u32::MAX), [0, 1]);
    assert_eq!(Proved.version_on(&pool, &table, OWNER, 0, u32::MAX - 1), [29, 0]);
    assert_eq!(Proved.backup_dated(&mut pool, &mut table, OWNER, 0, 7, &[2; 9]), [28, 0]);
    table[33] = 1;
    assert_eq!(Proved.version_on(&pool, &table, OWNER, 0, u32::MAX), [10, 0]);
    assert_eq!(Proved.backup_dated(&mut pool, &mut table, OWNER, 0, 7, &[]), [10, 0]);
}

/// As much stack as include/lurdempos.h asks for is enough for the longest image.
#[test]
fn in_512_kib_of_stack() {
    let image: Vec<u8> = (0..65_536u32).map(|n| (n.wrapping_mul(2_654_435_761) >> 13) as u8).collect();
    let call = move || {
        let mut store = Store::new(Capacities::LARGEST).unwrap();
        assert_eq!((store.backup_dated(OWNER, 0, 1, &image), store.backup_dated(OWNER, 0, 1, &image)), (Ok(1), Ok(2)));
        assert_eq!((store.version_on(OWNER, 0, 1), store.version_on(OWNER, 0, 0)), (Ok(2), Err(Refusal::NoneSoEarly)));
    };
    std::thread::Builder::new().stack_size(512 << 10).spawn(call).unwrap().join().unwrap();
}
