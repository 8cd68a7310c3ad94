//! Storage billed, as a program asks for it.

use lurdempos::{Bill, Calls, Capacities, Proved, Refusal, Store, HIGHEST_PRICE, OWNER};

/// A bill in which these tills owe these sums and all others nothing.
fn owed(first: &[u32]) -> Result<Bill, Refusal> {
    let mut bill = Bill::default();
    bill.sums[..first.len()].copy_from_slice(first);
    Ok(bill)
}

#[test]
fn by_till() {
    let mut store = Store::new(Capacities::new(3, 4, 16, 8, 32)).expect("good capacities");
    assert_eq!(store.bill(OWNER, HIGHEST_PRICE), owed(&[]));
    (0..3).for_each(|till| assert_eq!(store.backup(OWNER, till, &[7; 64]), Ok(1)));
    assert_eq!(store.bill(OWNER, 100), owed(&[34, 33, 33]));
    assert_eq!(store.backup(OWNER, 2, &[8; 65]), Ok(2));
    let (bill, tally) = (store.bill(OWNER, 25).unwrap(), store.tally(OWNER).unwrap());
    assert_eq!(bill.total(), 25 * tally.cells);
}

#[test]
fn refusals_by_name() {
    let store = Store::new(Capacities::new(1, 4, 16, 8, 32)).expect("good capacities");
    let said = [(8, 1, Refusal::UnknownUser), (1, 1, Refusal::NoRight), (0, HIGHEST_PRICE + 1, Refusal::HighPrice)];
    said.into_iter().for_each(|(user, price, refusal)| assert_eq!(store.bill(user, price), Err(refusal)));
    assert_eq!(store.bill(OWNER, u32::MAX).unwrap_err().to_string(), "refused, 30: a price above 10,000");
    assert_eq!(Proved.bill(&[], &[], 9, u32::MAX)[..2], [10, 0]);
}
