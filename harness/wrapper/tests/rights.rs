//! Users and their rights, by way of the wrapper.

use lurdempos::{Calls, Capacities, Proved, Refusal, Right, Rights, Store, OWNER, USERS};

fn small() -> Store {
    let mut store = Store::new(Capacities::new(2, 4, 16, 8, 32)).unwrap();
    assert_eq!((store.backup(OWNER, 0, &[1; 100]), store.backup(OWNER, 1, &[2; 100])), (Ok(1), Ok(1)));
    store
}

#[test]
fn given_and_taken() {
    let mut store = small();
    assert_eq!(store.listing(3, 0), Err(Refusal::NoRight));
    let rights = Rights { list: true, restore: true, ..Rights::NONE };
    assert_eq!(store.set_rights(OWNER, 3, 0, rights), Ok(()));
    assert_eq!((store.listing(3, 0).map(|listing| listing.newest), store.version_on(3, 0, 9)), (Ok(1), Ok(1)));
    assert_eq!((store.image(3, 0, 1), store.stream(3, 0, 1).is_ok()), (Ok(vec![1; 100]), true));
    assert_eq!((store.backup(3, 0, &[7]), store.retire(3, 0, 1)), (Err(Refusal::NoRight), Err(Refusal::NoRight)));
    assert_eq!((store.image(3, 1, 1), store.image(4, 0, 1)), (Err(Refusal::NoRight), Err(Refusal::NoRight)));
    assert_eq!(store.set_rights(OWNER, 3, 0, Rights::NONE), Ok(()));
    assert_eq!((store.image(3, 0, 1), store), (Err(Refusal::NoRight), small()));
}

/// Each of the four goes to its own place across the boundary.
#[test]
fn each_right() {
    for (n, right) in (0..).zip(Right::ALL) {
        let mut store = small();
        assert_eq!(store.set_rights(OWNER, 7, 1, Rights::only(right)), Ok(()));
        assert_eq!(store.table()[8 + 80 + 2], 1 << (24 + n), "{right:?}");
        let said = [
            store.listing(7, 1).err(),
            store.backup(7, 1, &[9]).err(),
            store.image(7, 1, 1).err(),
            store.retire(7, 1, 1).err(),
        ];
        for (asked, answer) in Right::ALL.into_iter().zip(said) {
            assert_eq!(answer, (asked != right).then_some(Refusal::NoRight), "{right:?}, {asked:?}");
        }
    }
}

#[test]
fn refusals() {
    let mut store = small();
    for user in [USERS, 99, u32::MAX] {
        let unknown = store.tally(user).unwrap_err();
        assert_eq!((unknown, unknown.number()), (Refusal::UnknownUser, 22));
        assert_eq!(store.listing(user, 2), Err(Refusal::NoSuchTill));
        assert_eq!(store.set_rights(OWNER, user, 0, Rights::ALL), Err(Refusal::UnknownUser));
    }
    assert_eq!(store.set_rights(OWNER, OWNER, 0, Rights::NONE), Err(Refusal::UnknownUser));
    assert_eq!(store.set_rights(1, 2, 0, Rights::ALL), Err(Refusal::NoRight));
    let missing = store.tally(1).unwrap_err();
    assert_eq!((missing.number(), missing.to_string().as_str()), (23, "refused, 23: a missing right"));
    let each = store.backup_all(1, &[(0, &[1][..]), (2, &[1])]);
    assert_eq!(each, Ok(vec![Err(Refusal::NoRight), Err(Refusal::NoSuchTill)]));
    let (mut pool, mut table) = store.into_parts();
    table[10] = 1 << 28;
    assert_eq!(Proved.set_rights(&pool, &mut table, 99, 99, 99, Rights::ALL), [10]);
    assert_eq!(Proved.backup(&mut pool, &mut table, 99, 0, &[1]), [10, 0]);
    assert_eq!(Store::from_parts(pool, table), Err(Refusal::Unsound));
}
