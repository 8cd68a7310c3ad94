//! A chain: several stores on one disk, and the calls that name one of them.

use crate::{Calls, Closing, Message, Rights, BILL_NUMBERS, CLOSING_NUMBERS};
use std::ops::Range;

/// Most stores that a chain can have.
pub const MOST_STORES: usize = 8;

/// A limit that refuses nothing: no chain has so many cells.
pub const NO_LIMIT: u32 = u32::MAX;

/// The stores of a chain: pools end to end and tables end to end, with the length of each. Nothing says that the lists
/// fit the buffers or each other, since a call is lent what there is.
#[derive(Clone, Debug, Default, PartialEq, Eq)]
pub struct Disk {
    pub pools: Vec<u8>,
    pub tables: Vec<u32>,
    /// Bytes of each pool.
    pub pool_lengths: Vec<u32>,
    /// Words of each table.
    pub table_lengths: Vec<u32>,
}

/// Pool and table of one store.
pub type Part<'a> = (&'a [u8], &'a [u32]);

/// The same, lent for writing.
pub type PartMut<'a> = (&'a mut [u8], &'a mut [u32]);

/// The store that a backup names, and the limit that it brings: so many cells may be occupied over all stores of the
/// chain at its end.
#[derive(Clone, Copy, Debug, PartialEq, Eq)]
pub struct Target {
    pub store: u32,
    pub limit: u32,
}

impl Disk {
    /// These stores, end to end.
    pub fn of<'a>(stores: impl IntoIterator<Item = Part<'a>>) -> Disk {
        let mut disk = Disk::default();
        stores.into_iter().for_each(|(pool, table)| disk.add(pool, table));
        disk
    }

    /// One store more. A length that no number can tell makes a sum that is not that of the buffer.
    pub fn add(&mut self, pool: &[u8], table: &[u32]) {
        let number = |length: usize| u32::try_from(length).unwrap_or(u32::MAX);
        self.pool_lengths.push(number(pool.len()));
        self.table_lengths.push(number(table.len()));
        self.pools.extend_from_slice(pool);
        self.tables.extend_from_slice(table);
    }

    /// Pool and table of a store, if the lists have it and the buffers reach so far.
    pub fn part(&self, store: u32) -> Option<Part<'_>> {
        let pool = self.pools.get(span(&self.pool_lengths, store)?)?;
        Some((pool, self.tables.get(span(&self.table_lengths, store)?)?))
    }

    /// The same for writing.
    pub fn part_mut(&mut self, store: u32) -> Option<PartMut<'_>> {
        let pool = self.pools.get_mut(span(&self.pool_lengths, store)?)?;
        Some((pool, self.tables.get_mut(span(&self.table_lengths, store)?)?))
    }

    /// All stores, up to the first that the lists or the buffers lack.
    pub fn parts(&self) -> impl Iterator<Item = Part<'_>> {
        (0..).map_while(|store| self.part(store))
    }
}

/// Where in a buffer a store's part lies.
fn span(lengths: &[u32], store: u32) -> Option<Range<usize>> {
    let length = *lengths.get(store as usize)? as usize;
    let start: usize = lengths[..store as usize].iter().map(|&length| length as usize).sum();
    Some(start..start + length)
}

/// The calls on a chain, each on the store that it names. They answer as [`Calls`] does: bare numbers, the refusal
/// first.
pub trait ChainCalls: Calls {
    fn chain_backup(&self, disk: &mut Disk, target: Target, user: u32, till: u32, image: &[u8]) -> [u32; 2];
    fn chain_backup_dated(
        &self,
        disk: &mut Disk,
        target: Target,
        user: u32,
        till: u32,
        day: u32,
        image: &[u8],
    ) -> [u32; 2];
    fn chain_backup_sent(&self, disk: &mut Disk, target: Target, user: u32, till: u32, message: Message) -> [u32; 2];
    /// Each image is judged by itself, with the cells that are occupied then.
    fn chain_backup_all(&self, disk: &mut Disk, target: Target, user: u32, closing: Closing) -> [u32; CLOSING_NUMBERS];
    fn chain_restore(&self, disk: &Disk, store: u32, user: u32, till: u32, version: u32, output: &mut [u8])
        -> [u32; 3];
    fn chain_retire(&self, disk: &mut Disk, store: u32, user: u32, till: u32, version: u32) -> [u32; 2];
    fn chain_listing(&self, disk: &Disk, store: u32, user: u32, till: u32) -> [u32; 4];
    fn chain_version_on(&self, disk: &Disk, store: u32, user: u32, till: u32, day: u32) -> [u32; 2];
    fn chain_tally(&self, disk: &Disk, store: u32, user: u32) -> [u32; 4];
    fn chain_bill(&self, disk: &Disk, store: u32, user: u32, price: u32) -> [u32; BILL_NUMBERS];
    fn chain_write_stream(
        &self,
        disk: &Disk,
        store: u32,
        user: u32,
        till: u32,
        version: u32,
        output: &mut [u8],
    ) -> [u32; 2];
    fn chain_offer(
        &self,
        disk: &Disk,
        store: u32,
        user: u32,
        till: u32,
        fingerprints: &[u8],
        marks: &mut [u8],
    ) -> [u32; 1];
    /// The pools are only looked at.
    fn chain_set_rights(
        &self,
        disk: &mut Disk,
        store: u32,
        user: u32,
        subject: u32,
        till: u32,
        rights: Rights,
    ) -> [u32; 1];
}

#[cfg(test)]
mod tests {
    use super::Disk;

    #[test]
    fn end_to_end() {
        let stores: [(&[u8], &[u32]); 3] = [(&[1, 2], &[3]), (&[], &[4, 5]), (&[6], &[])];
        let mut disk = Disk::of(stores);
        assert_eq!((&disk.pools[..], &disk.tables[..]), (&[1, 2, 6][..], &[3, 4, 5][..]));
        assert_eq!((&disk.pool_lengths[..], &disk.table_lengths[..]), (&[2, 0, 1][..], &[1, 2, 0][..]));
        assert!(disk.parts().eq(stores));
        assert_eq!((disk.part(3), disk.part(u32::MAX)), (None, None));
        disk.part_mut(1).expect("there are three").1[0] = 7;
        assert_eq!(disk.tables, [3, 7, 5]);
    }

    #[test]
    fn lists_that_do_not_fit() {
        let mut disk = Disk::of([(&[1, 2][..], &[3][..]), (&[4], &[5])]);
        disk.pool_lengths[1] = 2;
        assert_eq!((disk.part(0), disk.part(1)), (Some((&[1, 2][..], &[3][..])), None));
        disk.pool_lengths = vec![u32::MAX; 2];
        assert_eq!(disk.parts().count(), 0);
        disk.pool_lengths.clear();
        assert_eq!(disk.part(0), None);
    }
}
