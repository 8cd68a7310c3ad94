//! The owning store, as a program uses it.

use lurdempos::{table_length, Capacities, Listing, Refusal, Restored, Store, Tally, OWNER};

fn small() -> Store {
    Store::new(Capacities::new(2, 4, 16, 8, 32)).expect("good capacities")
}

#[test]
fn a_version_comes_back() {
    let mut store = small();
    let image: Vec<u8> = (0..700).map(|n| n as u8).collect();
    assert_eq!(store.backup(OWNER, 1, &image), Ok(1));
    assert_eq!(store.backup(OWNER, 1, &image[..650]), Ok(2));
    assert_eq!(store.image(OWNER, 1, 1).as_deref(), Ok(&image[..]));
    assert_eq!(store.image(OWNER, 1, 2).as_deref(), Ok(&image[..650]));
    assert_eq!(store.restore(OWNER, 1, 2, &mut [0; 1_024]), Ok(Restored { length: 650, hops: 0 }));
    assert_eq!(store.listing(OWNER, 1), Ok(Listing { oldest: 1, newest: 2, last: 2 }));
    assert_eq!(store.listing(OWNER, 0), Ok(Listing::default()));
    assert_eq!(store.retire(OWNER, 1, 1), Ok(700));
    assert_eq!(store.retire(OWNER, 1, 2), Ok(650));
    assert_eq!(store.tally(OWNER), Ok(Tally::default()));
}

#[test]
fn any_version_goes() {
    let mut store = small();
    let image: Vec<u8> = (0..700).map(|n| n as u8).collect();
    (1..=4).for_each(|n| assert_eq!(store.backup(OWNER, 0, &image[..600 + n as usize]), Ok(n)));
    assert_eq!(store.retire(OWNER, 0, 3), Ok(603));
    assert_eq!(store.retire(OWNER, 0, 4), Ok(604));
    assert_eq!(store.retire(OWNER, 0, 3), Err(Refusal::NoLongerHeld));
    assert_eq!(store.image(OWNER, 0, 4), Err(Refusal::NoLongerHeld));
    assert_eq!(store.stream(OWNER, 0, 5), Err(Refusal::NeverGiven));
    assert_eq!(store.listing(OWNER, 0), Ok(Listing { oldest: 1, newest: 2, last: 4 }));
    assert_eq!(store.backup(OWNER, 0, &image), Ok(5));
    assert_eq!(store.listing(OWNER, 0), Ok(Listing { oldest: 1, newest: 5, last: 5 }));
    for (version, length) in [(1, 601), (2, 602), (5, 700)] {
        assert_eq!(store.image(OWNER, 0, version).as_deref(), Ok(&image[..length]));
    }
}

#[test]
fn a_store_keeps_its_measures() {
    let page = Capacities::new(2, 4, 16, 8, 32);
    for capacities in [page, page.measured([512, 16, 0]), page.measured([64, 4, 100])] {
        let mut store = Store::new(capacities).expect("good capacities");
        let image: Vec<u8> = (0..700).map(|n| n as u8).collect();
        assert_eq!(store.backup(OWNER, 0, &image), Ok(1));
        assert_eq!((store.capacities(), store.image(OWNER, 0, 1)), (capacities, Ok(image)));
        assert_eq!(store.pool().len(), 32 * capacities.block_bytes as usize);
    }
}

#[test]
fn refusals_have_the_pages_words() {
    assert_eq!(Store::new(Capacities::new(17, 1, 1, 1, 1)), Err(Refusal::Capacity));
    assert_eq!(table_length(Capacities::LARGEST), Ok(1_129_544));
    assert_eq!(table_length(Capacities::largest([64, 16, 20])), Ok(1_195_080));
    assert_eq!(table_length(Capacities::largest([512, 8, 101])), Err(Refusal::Capacity));
    let refusal = small().backup(OWNER, 2, &[1]).unwrap_err();
    assert_eq!(refusal.to_string(), "refused, 3: till number not below the tills");
}

#[test]
fn parts_are_checked() {
    let store = small();
    let (mut pool, table) = store.clone().into_parts();
    assert_eq!(Store::from_parts(pool.clone(), table.clone()), Ok(store));
    pool[5] = 1;
    assert_eq!(Store::from_parts(pool, table), Err(Refusal::Unsound));
    assert_eq!(Store::from_parts(Vec::new(), Vec::new()), Err(Refusal::Unsound));
}
