//! A store that owns its two buffers.

use crate::answers::{each, marked, written};
use crate::Proved;
use terms::{
    answer, Bill, Calls, Capacities, Collected, Each, Listing, Message, Refusal, Restored, Rights, Tally,
    LONGEST_STREAM, OWNER,
};

/// Words of the table that these capacities need.
pub fn table_length(capacities: Capacities) -> Result<usize, Refusal> {
    answer(Proved.table_length(capacities)).map(|words: u32| words as usize)
}

/// A store with its pool and its table. Every call checks both before it does anything, and names its user, 0 for the
/// owner: others need a right on the till, which the owner gives with [`Store::set_rights`].
#[derive(Clone, Debug, PartialEq, Eq)]
pub struct Store {
    pool: Vec<u8>,
    table: Vec<u32>,
}

impl Store {
    /// An empty store.
    pub fn new(capacities: Capacities) -> Result<Store, Refusal> {
        // Capacities out of range are refused before anything is allocated for them.
        let mut table = vec![0; table_length(capacities)?];
        let mut pool = vec![0; capacities.pool_bytes()];
        answer(Proved.lay_out(&mut pool, &mut table, capacities)).map(|()| Store { pool, table })
    }

    /// A store from pool and table kept elsewhere, if they are a sound one.
    pub fn from_parts(pool: Vec<u8>, table: Vec<u32>) -> Result<Store, Refusal> {
        let store = Store { pool, table };
        store.tally(OWNER).map(|_| store)
    }

    /// Pool and table of a store that is known to be sound.
    pub(crate) fn sound(pool: Vec<u8>, table: Vec<u32>) -> Store {
        Store { pool, table }
    }

    pub fn into_parts(self) -> (Vec<u8>, Vec<u32>) {
        (self.pool, self.table)
    }

    pub fn pool(&self) -> &[u8] {
        &self.pool
    }

    pub fn table(&self) -> &[u32] {
        &self.table
    }

    /// The capacities that it was laid out with.
    pub fn capacities(&self) -> Capacities {
        Capacities::of_table(&self.table).expect("the store is sound")
    }

    /// Files an image as the till's next version and answers its number. Its day is that of the till's newest held
    /// version, or 0 if none is held.
    pub fn backup(&mut self, user: u32, till: u32, image: &[u8]) -> Result<u32, Refusal> {
        answer(Proved.backup(&mut self.pool, &mut self.table, user, till, image))
    }

    /// The same with a day, which must not be before that of the till's newest held version.
    pub fn backup_dated(&mut self, user: u32, till: u32, day: u32, image: &[u8]) -> Result<u32, Refusal> {
        answer(Proved.backup_dated(&mut self.pool, &mut self.table, user, till, day, image))
    }

    /// Files up to 16 images, each as its till's next version, in their order, and answers what became of each: a refused
    /// one does not stop the later ones. The store is checked once for all. [`Proved`] takes lists of any kind.
    pub fn backup_all(&mut self, user: u32, images: &[(u32, &[u8])]) -> Result<Each, Refusal> {
        let collected = Collected::of(images.iter().copied());
        each(images.len(), Proved.backup_all(&mut self.pool, &mut self.table, user, collected.closing()))
    }

    /// Writes a version's image to the start of the output.
    pub fn restore(&self, user: u32, till: u32, version: u32, output: &mut [u8]) -> Result<Restored, Refusal> {
        answer(Proved.restore(&self.pool, &self.table, user, till, version, output))
    }

    /// A version's image.
    pub fn image(&self, user: u32, till: u32, version: u32) -> Result<Vec<u8>, Refusal> {
        let restore = |image: &mut [u8]| self.restore(user, till, version, image).map(|restored| restored.length);
        written(self.capacities().image_bytes(), restore)
    }

    /// Writes a version as a stream to the start of the output and answers the stream's length.
    pub fn write_stream(&self, user: u32, till: u32, version: u32, output: &mut [u8]) -> Result<u32, Refusal> {
        answer(Proved.write_stream(&self.pool, &self.table, user, till, version, output))
    }

    /// A version's stream, which [`image_of_stream`](crate::image_of_stream) reads on another box.
    pub fn stream(&self, user: u32, till: u32, version: u32) -> Result<Vec<u8>, Refusal> {
        written(LONGEST_STREAM, |stream| self.write_stream(user, till, version, stream))
    }

    /// Marks with 1, else 0, each segment that the store has, by their fingerprints: those that a till need not send.
    pub fn offer(&self, user: u32, till: u32, fingerprints: &[u8]) -> Result<Vec<u8>, Refusal> {
        marked(fingerprints, |marks| Proved.offer(&self.pool, &self.table, user, till, fingerprints, marks))
    }

    /// Files the image that a message and what the store has make together, as the till's next version, and answers its
    /// number.
    pub fn backup_sent(&mut self, user: u32, till: u32, message: Message) -> Result<u32, Refusal> {
        answer(Proved.backup_sent(&mut self.pool, &mut self.table, user, till, message))
    }

    /// Takes a held version away and answers its length. Numbers go on; the others keep theirs.
    pub fn retire(&mut self, user: u32, till: u32, version: u32) -> Result<u32, Refusal> {
        answer(Proved.retire(&mut self.pool, &mut self.table, user, till, version))
    }

    /// Oldest and newest held number of a till, and the last given.
    pub fn listing(&self, user: u32, till: u32) -> Result<Listing, Refusal> {
        answer(Proved.listing(&self.pool, &self.table, user, till))
    }

    /// The newest held version of a till that is not after a day.
    pub fn version_on(&self, user: u32, till: u32, day: u32) -> Result<u32, Refusal> {
        answer(Proved.version_on(&self.pool, &self.table, user, till, day))
    }

    /// Sets what a user other than the owner, the subject, may do on a till from now on; for the owner.
    pub fn set_rights(&mut self, user: u32, subject: u32, till: u32, rights: Rights) -> Result<(), Refusal> {
        answer(Proved.set_rights(&self.pool, &mut self.table, user, subject, till, rights))
    }

    /// Occupied cells, records in use, sum of all counts; for the owner.
    pub fn tally(&self, user: u32) -> Result<Tally, Refusal> {
        answer(Proved.tally(&self.pool, &self.table, user))
    }

    /// What each till's share of the storage costs, in tenths of a cent: the price of each occupied cell is divided among
    /// the tills with a block that points straight to it. The sums add up to the price times the tally's cells; for the
    /// owner.
    pub fn bill(&self, user: u32, price: u32) -> Result<Bill, Refusal> {
        answer(Proved.bill(&self.pool, &self.table, user, price))
    }
}
