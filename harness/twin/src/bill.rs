//! Storage billed: each occupied cell's price is divided among the tills that have a direct pointer to it.

use crate::layout::{Layout, Record};
use crate::users::owned;
use crate::{direct, sound};
use terms::{Bill, Refusal, HIGHEST_PRICE, MOST_TILLS};

/// Whether each till has a direct pointer to a cell, in any of its held versions.
type Sharing = [bool; MOST_TILLS];

/// What each till's share of the storage costs at this price of a cell; for the owner.
pub fn bill(pool: &[u8], table: &[u32], user: u32, price: u32) -> Result<Bill, Refusal> {
    bill_in(&sound::check(pool, table)?.layout, table, user, price)
}

pub fn bill_in(layout: &Layout, table: &[u32], user: u32, price: u32) -> Result<Bill, Refusal> {
    owned(user)?;
    if price > HIGHEST_PRICE {
        return Err(Refusal::HighPrice);
    }
    let mut bill = Bill::default();
    cells(layout, table).iter().for_each(|sharing| divide(price, sharing, &mut bill));
    Ok(bill)
}

/// Who shares each cell. A free one has nobody, and an occupied one at least one till, since its count is that of the
/// direct pointers to it.
fn cells(layout: &Layout, table: &[u32]) -> Vec<Sharing> {
    let mut cells = vec![[false; MOST_TILLS]; layout.cells];
    let records = layout.records_of(table);
    for (n, till) in (0..layout.tills).map(|n| layout.till_of(table, n)).enumerate() {
        let pointers = (0..till.held()).flat_map(|slot| till.pointers(slot));
        for place in pointers.filter_map(|&word| direct(word)) {
            cells[Record::cell(&records[place.record], place.position)][n] = true;
        }
    }
    cells
}

/// The whole quotient to each of the tills that share a cell, and the tenths that are left one each to the lowest of
/// these.
fn divide(price: u32, sharing: &Sharing, bill: &mut Bill) {
    let tills = sharing.iter().filter(|&&shares| shares).count() as u32;
    let sums = bill.sums.iter_mut().zip(sharing).filter(|(_, &shares)| shares).map(|(sum, _)| sum);
    for (nth, sum) in (0..).zip(sums) {
        *sum += price / tills + (nth < price % tills) as u32;
    }
}
