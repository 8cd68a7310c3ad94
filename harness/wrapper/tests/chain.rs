//! Several stores on one disk, by the wrapper.

use lurdempos::{sending, Capacities, Chain, Refusal, Right, Rights, Store, MOST_STORES, NO_LIMIT, OWNER};

const CLERK: u32 = 3;

/// Two tills and blocks of so many bytes.
fn store(block_bytes: u32) -> Store {
    Store::new(Capacities::new(2, 4, 16, 8, 32).measured([block_bytes, 8, 20])).expect("good capacities")
}

fn chain() -> Chain {
    Chain::of([store(64), store(128)]).expect("two stores")
}

#[test]
fn in_and_out_again() {
    assert_eq!(Chain::of([]), Err(Refusal::Capacity));
    let many = |count| Chain::of(vec![store(64); count]);
    assert_eq!(many(MOST_STORES).map(|chain| chain.stores()), Ok(8));
    assert_eq!(many(MOST_STORES + 1), Err(Refusal::Capacity));
    let mut chain = chain();
    assert_eq!((chain.capacities(1).map(|one| one.block_bytes), chain.store(0)), (Ok(128), Ok(store(64))));
    assert_eq!(chain.backup(1, NO_LIMIT, OWNER, 0, &[7; 300]), Ok(1));
    let mut alone = store(128);
    assert_eq!(alone.backup(OWNER, 0, &[7; 300]), Ok(1));
    assert_eq!(chain.part(1), Ok((alone.pool(), alone.table())));
    let outside = Err(Refusal::NoSuchTill);
    assert_eq!((chain.part(2), chain.store(2).map(drop)), (outside, outside.map(drop)));
    assert_eq!(chain.into_stores(), [store(64), alone]);
}

#[test]
fn under_a_limit() {
    let mut chain = chain();
    assert_eq!((chain.backup(0, 5, OWNER, 0, &[1; 320]), chain.cells()), (Ok(1), Ok(5)));
    let before = chain.clone();
    assert_eq!(chain.backup(1, 6, OWNER, 0, &[2; 200]), Err(Refusal::OverLimit));
    assert_eq!(chain.backup_dated(1, 6, OWNER, 0, 9, &[2; 200]), Err(Refusal::OverLimit));
    let message = sending(&[2; 200], before.capacities(1).expect("it is there"));
    assert_eq!(chain.backup_sent(1, 6, OWNER, 0, message.message()), Err(Refusal::OverLimit));
    assert_eq!(chain, before);
    assert_eq!(chain.backup_dated(1, 7, OWNER, 0, 9, &[2; 200]), Ok(1));
    let images = [(0, &[3; 65][..]), (1, &[1; 320]), (2, &[4])];
    let said = chain.backup_all(0, 7, OWNER, &images);
    assert_eq!(said, Ok(vec![Err(Refusal::OverLimit), Ok(1), Err(Refusal::NoSuchTill)]));
    // What frees cells is for no limit to refuse.
    assert_eq!((chain.retire(1, OWNER, 0, 1), chain.cells()), (Ok(200), Ok(5)));
    assert_eq!(chain.backup(2, 0, OWNER, 0, &[5]), Err(Refusal::NoSuchTill));
}

#[test]
fn each_by_its_number() {
    let mut chain = chain();
    assert_eq!(chain.backup_dated(1, NO_LIMIT, OWNER, 1, 20, b"closing"), Ok(1));
    assert_eq!(chain.image(1, OWNER, 1, 1), Ok(b"closing".to_vec()));
    assert_eq!(chain.image(0, OWNER, 1, 1), Err(Refusal::NeverGiven));
    assert_eq!(chain.stream(1, OWNER, 1, 1).map(|stream| stream.len()), Ok(4 + 1 + 64));
    assert_eq!(
        (chain.version_on(1, OWNER, 1, 20), chain.version_on(1, OWNER, 1, 19)),
        (Ok(1), Err(Refusal::NoneSoEarly))
    );
    assert_eq!(chain.listing(1, OWNER, 1).map(|listing| listing.newest), Ok(1));
    let cells = |chain: &Chain| [0, 1].map(|store| chain.tally(store, OWNER).map(|tally| tally.cells));
    assert_eq!((cells(&chain), chain.bill(1, OWNER, 25).map(|bill| bill.sums[1])), ([Ok(0), Ok(1)], Ok(25)));
    // What one store has another has not.
    let whole = [0, 1].map(|store| sending(b"closing", chain.capacities(store).expect("it is there")));
    assert_eq!(chain.offer(0, OWNER, 0, &whole[0].fingerprints), Ok(vec![0]));
    assert_eq!(chain.offer(1, OWNER, 0, &whole[1].fingerprints), Ok(vec![1]));
    // And so it is with rights.
    assert_eq!(chain.set_rights(1, OWNER, CLERK, 1, Rights::only(Right::List)), Ok(()));
    assert_eq!(chain.listing(1, CLERK, 1).map(|listing| listing.last), Ok(1));
    assert_eq!(chain.listing(0, CLERK, 1), Err(Refusal::NoRight));
    let mut output = [0; 9];
    assert_eq!(chain.restore(1, OWNER, 1, 1, &mut output).map(|restored| restored.length), Ok(7));
    assert_eq!(output[..7], b"closing"[..]);
    assert_eq!(chain.write_stream(1, OWNER, 1, 1, &mut output), Err(Refusal::ShortOutput));
}
