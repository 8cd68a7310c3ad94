//! Up to eight stores on one disk.

use crate::answers::{each, marked, written};
use crate::{Proved, Store};
use terms::{
    answer, Bill, Calls, Capacities, ChainCalls, Collected, Disk, Each, Listing, Message, Part, Refusal, Restored,
    Rights, Tally, Target, LONGEST_IMAGE, LONGEST_STREAM, MOST_STORES, OWNER,
};

/// A chain of stores, each with a number from 0 on. Every call names one and leaves the others as they are; a number
/// outside is refused with 3. All stores are checked before anything is done.
///
/// A call that backs up brings a limit: it is refused with 21, after all other refusals, if more cells than that would
/// then be occupied over all stores. [`NO_LIMIT`](terms::NO_LIMIT) refuses nothing. The rest is as with a [`Store`]
/// alone.
#[derive(Clone, Debug, PartialEq, Eq)]
pub struct Chain {
    disk: Disk,
}

impl Chain {
    /// A chain of these stores, in this order. None at all and more than eight are refused with 1.
    pub fn of(stores: impl IntoIterator<Item = Store>) -> Result<Chain, Refusal> {
        let stores: Vec<Store> = stores.into_iter().collect();
        let disk = Disk::of(stores.iter().map(|store| (store.pool(), store.table())));
        (1..=MOST_STORES).contains(&stores.len()).then_some(Chain { disk }).ok_or(Refusal::Capacity)
    }

    /// The stores one by one again.
    pub fn into_stores(self) -> Vec<Store> {
        self.disk.parts().map(|(pool, table)| Store::sound(pool.to_vec(), table.to_vec())).collect()
    }

    /// How many stores it has.
    pub fn stores(&self) -> u32 {
        self.disk.pool_lengths.len() as u32
    }

    /// A store as it is now, by itself.
    pub fn store(&self, store: u32) -> Result<Store, Refusal> {
        self.part(store).map(|(pool, table)| Store::sound(pool.to_vec(), table.to_vec()))
    }

    /// Pool and table of a store.
    pub fn part(&self, store: u32) -> Result<Part<'_>, Refusal> {
        self.disk.part(store).ok_or(Refusal::NoSuchTill)
    }

    /// The capacities that a store was laid out with.
    pub fn capacities(&self, store: u32) -> Result<Capacities, Refusal> {
        self.part(store).map(|(_, table)| Capacities::of_table(table).expect("the store is sound"))
    }

    /// The cells that are occupied over all stores, which a limit is set against.
    pub fn cells(&self) -> Result<u32, Refusal> {
        self.disk
            .parts()
            .map(|(pool, table)| answer(Proved.tally(pool, table, OWNER)).map(|tally: Tally| tally.cells))
            .sum()
    }

    /// Files an image as the till's next version and answers its number.
    pub fn backup(&mut self, store: u32, limit: u32, user: u32, till: u32, image: &[u8]) -> Result<u32, Refusal> {
        answer(Proved.chain_backup(&mut self.disk, Target { store, limit }, user, till, image))
    }

    /// The same with a day.
    pub fn backup_dated(
        &mut self,
        store: u32,
        limit: u32,
        user: u32,
        till: u32,
        day: u32,
        image: &[u8],
    ) -> Result<u32, Refusal> {
        answer(Proved.chain_backup_dated(&mut self.disk, Target { store, limit }, user, till, day, image))
    }

    /// Files the image that a message and what the store has make together.
    pub fn backup_sent(
        &mut self,
        store: u32,
        limit: u32,
        user: u32,
        till: u32,
        message: Message,
    ) -> Result<u32, Refusal> {
        answer(Proved.chain_backup_sent(&mut self.disk, Target { store, limit }, user, till, message))
    }

    /// Files up to 16 images and answers what became of each. Each is held against the limit by itself, in their order;
    /// one that is refused does not stop the later ones.
    pub fn backup_all(&mut self, store: u32, limit: u32, user: u32, images: &[(u32, &[u8])]) -> Result<Each, Refusal> {
        let collected = Collected::of(images.iter().copied());
        let target = Target { store, limit };
        each(images.len(), Proved.chain_backup_all(&mut self.disk, target, user, collected.closing()))
    }

    /// Writes a version's image to the start of the output.
    pub fn restore(
        &self,
        store: u32,
        user: u32,
        till: u32,
        version: u32,
        output: &mut [u8],
    ) -> Result<Restored, Refusal> {
        answer(Proved.chain_restore(&self.disk, store, user, till, version, output))
    }

    /// A version's image.
    pub fn image(&self, store: u32, user: u32, till: u32, version: u32) -> Result<Vec<u8>, Refusal> {
        let restore =
            |image: &mut [u8]| self.restore(store, user, till, version, image).map(|restored| restored.length);
        written(LONGEST_IMAGE as usize, restore)
    }

    /// Takes a held version away and answers its length. No limit refuses this.
    pub fn retire(&mut self, store: u32, user: u32, till: u32, version: u32) -> Result<u32, Refusal> {
        answer(Proved.chain_retire(&mut self.disk, store, user, till, version))
    }

    /// Oldest and newest held number of a till, and the last given.
    pub fn listing(&self, store: u32, user: u32, till: u32) -> Result<Listing, Refusal> {
        answer(Proved.chain_listing(&self.disk, store, user, till))
    }

    /// The newest held version of a till that is not after a day.
    pub fn version_on(&self, store: u32, user: u32, till: u32, day: u32) -> Result<u32, Refusal> {
        answer(Proved.chain_version_on(&self.disk, store, user, till, day))
    }

    /// Occupied cells, records in use and sum of all counts of one store; for the owner.
    pub fn tally(&self, store: u32, user: u32) -> Result<Tally, Refusal> {
        answer(Proved.chain_tally(&self.disk, store, user))
    }

    /// What each till's share of one store's cells costs, in tenths of a cent; for the owner.
    pub fn bill(&self, store: u32, user: u32, price: u32) -> Result<Bill, Refusal> {
        answer(Proved.chain_bill(&self.disk, store, user, price))
    }

    /// Writes a version as a stream to the start of the output and answers the stream's length.
    pub fn write_stream(
        &self,
        store: u32,
        user: u32,
        till: u32,
        version: u32,
        output: &mut [u8],
    ) -> Result<u32, Refusal> {
        answer(Proved.chain_write_stream(&self.disk, store, user, till, version, output))
    }

    /// A version's stream.
    pub fn stream(&self, store: u32, user: u32, till: u32, version: u32) -> Result<Vec<u8>, Refusal> {
        written(LONGEST_STREAM, |stream| self.write_stream(store, user, till, version, stream))
    }

    /// Marks with 1, else 0, each segment that the store has, by their fingerprints. What other stores have is not asked.
    pub fn offer(&self, store: u32, user: u32, till: u32, fingerprints: &[u8]) -> Result<Vec<u8>, Refusal> {
        marked(fingerprints, |marks| Proved.chain_offer(&self.disk, store, user, till, fingerprints, marks))
    }

    /// Sets what a user other than the owner, the subject, may do on a till of one store from now on; for the owner.
    pub fn set_rights(
        &mut self,
        store: u32,
        user: u32,
        subject: u32,
        till: u32,
        rights: Rights,
    ) -> Result<(), Refusal> {
        answer(Proved.chain_set_rights(&mut self.disk, store, user, subject, till, rights))
    }
}
