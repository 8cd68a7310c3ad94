//! Several stores on one disk: each call names one of them, and those that back up bring a limit on the occupied cells
//! of all.

use crate::bill::bill_in;
use crate::closing::each;
use crate::dated::version_on_in;
use crate::layout::Layout;
use crate::sent::{backup_sent_in, offer_in};
use crate::sound::{self, Found};
use crate::stream::write_stream_in;
use crate::users::{set_rights_in, By};
use crate::{backup_in, listing_in, restore_in, retire_in, tally_in, New, Twin};
use terms::{
    numbers, ChainCalls, Closing, Disk, Message, Part, Refusal, Rights, Target, BILL_NUMBERS, CLOSING_NUMBERS,
    MOST_STORES,
};

/// What the check of all stores finds of the one that is named, and the cells that the others occupy. Refuses with 1, 10
/// or 3, in this order. Every store is checked once.
fn check(disk: &Disk, store: u32) -> Result<(Found, usize), Refusal> {
    let stores = disk.pool_lengths.len();
    if stores != disk.table_lengths.len() || !(1..=MOST_STORES).contains(&stores) {
        return Err(Refusal::Capacity);
    }
    if !adds_up(&disk.pool_lengths, disk.pools.len()) || !adds_up(&disk.table_lengths, disk.tables.len()) {
        return Err(Refusal::Unsound);
    }
    let (mut named, mut others) = (None, 0);
    for (n, (pool, table)) in (0..).zip(disk.parts()) {
        let found = sound::check(pool, table)?;
        match n == store {
            true => named = Some(found),
            false => others += found.occupied.count(),
        }
    }
    named.map(|found| (found, others)).ok_or(Refusal::NoSuchTill)
}

/// Whether lengths are those of the parts of a whole. So few of 32 bits cannot add up to more than 64.
fn adds_up(lengths: &[u32], whole: usize) -> bool {
    lengths.iter().map(|&length| u64::from(length)).sum::<u64>() == whole as u64
}

/// The named store, for a call that reads it.
fn reading(disk: &Disk, store: u32) -> Result<(Layout, Part<'_>), Refusal> {
    let layout = check(disk, store)?.0.layout;
    disk.part(store).map(|part| (layout, part)).ok_or(Refusal::NoSuchTill)
}

/// The named store, for a call that alters it.
fn writing(disk: &mut Disk, Target { store, limit }: Target) -> Result<Writing<'_>, Refusal> {
    let (found, others) = check(disk, store)?;
    let (pool, table) = disk.part_mut(store).ok_or(Refusal::NoSuchTill)?;
    Ok(Writing { found, pool, table, others, limit: limit as usize })
}

struct Writing<'a> {
    found: Found,
    pool: &'a mut [u8],
    table: &'a mut [u32],
    /// Cells that the other stores occupy, and those that all may.
    others: usize,
    limit: usize,
}

impl Writing<'_> {
    /// Whether all stores together keep to the limit if this one occupies so many cells.
    fn has_room(&self, cells: usize) -> bool {
        self.others + cells <= self.limit
    }

    /// Makes a backup as if there were no limit, counts the cells at its end, and puts the store back if they are too
    /// many. The proved store tells their number before removal instead, and takes back what it placed. To be fair to both,
    /// the copy to put back is made only where the blocks of an image could come to exceed the limit: far from it they
    /// can be timed side by side.
    fn limited(&mut self, backup: impl FnOnce(&mut Writing) -> Result<u32, Refusal>) -> Result<u32, Refusal> {
        if self.has_room(self.found.occupied.count() + self.found.layout.blocks) {
            return backup(self);
        }
        let before = (self.found.occupied.clone(), self.pool.to_vec(), self.table.to_vec());
        let version = backup(self)?;
        if self.has_room(self.found.occupied.count()) {
            return Ok(version);
        }
        self.found.occupied = before.0;
        self.pool.copy_from_slice(&before.1);
        self.table.copy_from_slice(&before.2);
        Err(Refusal::OverLimit)
    }

    fn backup(&mut self, user: u32, till: u32, day: Option<u32>, image: &[u8]) -> Result<u32, Refusal> {
        let new = New { day, ..New::now(image) };
        self.limited(|store| backup_in(&mut store.found, store.pool, store.table, By { user, till }, new))
    }

    fn backup_sent(&mut self, user: u32, till: u32, message: Message) -> Result<u32, Refusal> {
        self.limited(|store| backup_sent_in(&mut store.found, store.pool, store.table, By { user, till }, message))
    }
}

/// For the calls that alter a store and bring no limit.
fn unlimited(store: u32) -> Target {
    Target { store, limit: terms::NO_LIMIT }
}

impl ChainCalls for Twin {
    fn chain_backup(&self, disk: &mut Disk, target: Target, user: u32, till: u32, image: &[u8]) -> [u32; 2] {
        numbers(writing(disk, target).and_then(|mut store| store.backup(user, till, None, image)))
    }

    fn chain_backup_dated(
        &self,
        disk: &mut Disk,
        target: Target,
        user: u32,
        till: u32,
        day: u32,
        image: &[u8],
    ) -> [u32; 2] {
        numbers(writing(disk, target).and_then(|mut store| store.backup(user, till, Some(day), image)))
    }

    fn chain_backup_sent(&self, disk: &mut Disk, target: Target, user: u32, till: u32, message: Message) -> [u32; 2] {
        numbers(writing(disk, target).and_then(|mut store| store.backup_sent(user, till, message)))
    }

    fn chain_backup_all(&self, disk: &mut Disk, target: Target, user: u32, closing: Closing) -> [u32; CLOSING_NUMBERS] {
        let file = |mut store: Writing| each(closing, |till, image| store.backup(user, till, None, image));
        numbers(writing(disk, target).and_then(file))
    }

    fn chain_restore(
        &self,
        disk: &Disk,
        store: u32,
        user: u32,
        till: u32,
        version: u32,
        output: &mut [u8],
    ) -> [u32; 3] {
        let restore = |(layout, (pool, table)): (Layout, Part)| {
            restore_in(&layout, pool, table, By { user, till }, version, output)
        };
        numbers(reading(disk, store).and_then(restore))
    }

    fn chain_retire(&self, disk: &mut Disk, store: u32, user: u32, till: u32, version: u32) -> [u32; 2] {
        let retire =
            |Writing { found, pool, table, .. }: Writing| retire_in(found, pool, table, By { user, till }, version);
        numbers(writing(disk, unlimited(store)).and_then(retire))
    }

    fn chain_listing(&self, disk: &Disk, store: u32, user: u32, till: u32) -> [u32; 4] {
        numbers(reading(disk, store).and_then(|(layout, (_, table))| listing_in(&layout, table, By { user, till })))
    }

    fn chain_version_on(&self, disk: &Disk, store: u32, user: u32, till: u32, day: u32) -> [u32; 2] {
        let look_up = |(layout, (_, table)): (Layout, Part)| version_on_in(&layout, table, By { user, till }, day);
        numbers(reading(disk, store).and_then(look_up))
    }

    fn chain_tally(&self, disk: &Disk, store: u32, user: u32) -> [u32; 4] {
        numbers(reading(disk, store).and_then(|(layout, (_, table))| tally_in(&layout, table, user)))
    }

    fn chain_bill(&self, disk: &Disk, store: u32, user: u32, price: u32) -> [u32; BILL_NUMBERS] {
        numbers(reading(disk, store).and_then(|(layout, (_, table))| bill_in(&layout, table, user, price)))
    }

    fn chain_write_stream(
        &self,
        disk: &Disk,
        store: u32,
        user: u32,
        till: u32,
        version: u32,
        output: &mut [u8],
    ) -> [u32; 2] {
        let write = |(layout, (pool, table)): (Layout, Part)| {
            write_stream_in(&layout, pool, table, By { user, till }, version, output)
        };
        numbers(reading(disk, store).and_then(write))
    }

    fn chain_offer(
        &self,
        disk: &Disk,
        store: u32,
        user: u32,
        till: u32,
        fingerprints: &[u8],
        marks: &mut [u8],
    ) -> [u32; 1] {
        let offer = |(layout, (pool, table)): (Layout, Part)| {
            offer_in(&layout, pool, table, By { user, till }, fingerprints, marks)
        };
        numbers(reading(disk, store).and_then(offer))
    }

    fn chain_set_rights(
        &self,
        disk: &mut Disk,
        store: u32,
        user: u32,
        subject: u32,
        till: u32,
        rights: Rights,
    ) -> [u32; 1] {
        let set = |Writing { found, table, .. }: Writing| {
            set_rights_in(&found.layout, table, By { user, till }, subject, rights)
        };
        numbers(writing(disk, unlimited(store)).and_then(set))
    }
}
