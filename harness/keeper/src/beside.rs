//! A store that has its place in a chain: what is said of a store alone is said of it too.

use crate::{bills, blanks, dated, day, lookups, retires, sent, settings, together};
use terms::{
    Calls, Capacities, ChainCalls, Closing, Disk, Message, Rights, Target, BILL_NUMBERS, CLOSING_NUMBERS, NO_LIMIT,
};

/// The calls on a store, made on a chain in which the lent buffers stand between others.
pub struct Beside {
    chain: Box<dyn ChainCalls>,
    before: Disk,
    after: Disk,
}

impl Beside {
    /// Between these sound stores.
    pub fn new(chain: Box<dyn ChainCalls>, before: Disk, after: Disk) -> Beside {
        Beside { chain, before, after }
    }

    fn place(&self) -> u32 {
        self.before.pool_lengths.len() as u32
    }

    fn disk(&self, pool: &[u8], table: &[u32]) -> Disk {
        Disk::of(self.before.parts().chain([(pool, table)]).chain(self.after.parts()))
    }

    /// A call that reads: all stores stay.
    fn read<T>(&self, pool: &[u8], table: &[u32], call: impl FnOnce(&Disk, u32) -> T) -> T {
        let disk = self.disk(pool, table);
        let answer = call(&disk, self.place());
        assert!(disk == self.disk(pool, table), "altered by a call that reads");
        answer
    }

    /// A call that alters: the lent buffers get what it left in their place, and all other stores stay.
    fn write<T>(&self, pool: &mut [u8], table: &mut [u32], call: impl FnOnce(&mut Disk, Target) -> T) -> T {
        let mut disk = self.disk(pool, table);
        let answer = call(&mut disk, Target { store: self.place(), limit: NO_LIMIT });
        let (own_pool, own_table) = disk.part(self.place()).expect("it has its place");
        pool.copy_from_slice(own_pool);
        table.copy_from_slice(own_table);
        assert!(disk == self.disk(pool, table), "another store was altered");
        answer
    }
}

impl Calls for Beside {
    fn name(&self) -> &'static str {
        "store of a chain"
    }

    fn table_length(&self, capacities: Capacities) -> [u32; 2] {
        self.chain.table_length(capacities)
    }

    fn lay_out(&self, pool: &mut [u8], table: &mut [u32], capacities: Capacities) -> [u32; 1] {
        self.chain.lay_out(pool, table, capacities)
    }

    fn backup(&self, pool: &mut [u8], table: &mut [u32], user: u32, till: u32, image: &[u8]) -> [u32; 2] {
        self.write(pool, table, |disk, target| self.chain.chain_backup(disk, target, user, till, image))
    }

    fn backup_dated(
        &self,
        pool: &mut [u8],
        table: &mut [u32],
        user: u32,
        till: u32,
        day: u32,
        image: &[u8],
    ) -> [u32; 2] {
        self.write(pool, table, |disk, target| self.chain.chain_backup_dated(disk, target, user, till, day, image))
    }

    fn backup_all(&self, pool: &mut [u8], table: &mut [u32], user: u32, closing: Closing) -> [u32; CLOSING_NUMBERS] {
        self.write(pool, table, |disk, target| self.chain.chain_backup_all(disk, target, user, closing))
    }

    fn restore(&self, pool: &[u8], table: &[u32], user: u32, till: u32, version: u32, output: &mut [u8]) -> [u32; 3] {
        self.read(pool, table, |disk, store| self.chain.chain_restore(disk, store, user, till, version, output))
    }

    fn retire(&self, pool: &mut [u8], table: &mut [u32], user: u32, till: u32, version: u32) -> [u32; 2] {
        self.write(pool, table, |disk, target| self.chain.chain_retire(disk, target.store, user, till, version))
    }

    fn listing(&self, pool: &[u8], table: &[u32], user: u32, till: u32) -> [u32; 4] {
        self.read(pool, table, |disk, store| self.chain.chain_listing(disk, store, user, till))
    }

    fn version_on(&self, pool: &[u8], table: &[u32], user: u32, till: u32, day: u32) -> [u32; 2] {
        self.read(pool, table, |disk, store| self.chain.chain_version_on(disk, store, user, till, day))
    }

    fn tally(&self, pool: &[u8], table: &[u32], user: u32) -> [u32; 4] {
        self.read(pool, table, |disk, store| self.chain.chain_tally(disk, store, user))
    }

    fn bill(&self, pool: &[u8], table: &[u32], user: u32, price: u32) -> [u32; BILL_NUMBERS] {
        self.read(pool, table, |disk, store| self.chain.chain_bill(disk, store, user, price))
    }

    fn set_rights(
        &self,
        pool: &[u8],
        table: &mut [u32],
        user: u32,
        subject: u32,
        till: u32,
        rights: Rights,
    ) -> [u32; 1] {
        let mut same = pool.to_vec();
        let answer = self.write(&mut same, table, |disk, target| {
            self.chain.chain_set_rights(disk, target.store, user, subject, till, rights)
        });
        assert!(pool == same, "a pool altered by a change of rights");
        answer
    }

    fn write_stream(
        &self,
        pool: &[u8],
        table: &[u32],
        user: u32,
        till: u32,
        version: u32,
        output: &mut [u8],
    ) -> [u32; 2] {
        self.read(pool, table, |disk, store| self.chain.chain_write_stream(disk, store, user, till, version, output))
    }

    fn read_stream(&self, stream: &[u8], output: &mut [u8]) -> [u32; 2] {
        self.chain.read_stream(stream, output)
    }

    fn offer(
        &self,
        pool: &[u8],
        table: &[u32],
        user: u32,
        till: u32,
        fingerprints: &[u8],
        marks: &mut [u8],
    ) -> [u32; 1] {
        self.read(pool, table, |disk, store| self.chain.chain_offer(disk, store, user, till, fingerprints, marks))
    }

    fn backup_sent(&self, pool: &mut [u8], table: &mut [u32], user: u32, till: u32, message: Message) -> [u32; 2] {
        self.write(pool, table, |disk, target| self.chain.chain_backup_sent(disk, target, user, till, message))
    }

    fn sha1(&self, message: &[u8]) -> [u32; 5] {
        self.chain.sha1(message)
    }

    fn turn(&self, record: [u32; 3]) -> [u32; 6] {
        self.chain.turn(record)
    }
}

/// Cases that are worked out by hand for a store alone, of every request that has some.
pub const CASES: [fn(&dyn Calls); 44] = [
    day::days_in_a_row,
    day::fresh_stores,
    day::lengths,
    settings::larger_blocks,
    settings::ends_of_the_percentage,
    settings::percentages_between,
    settings::four_blocks,
    settings::sixteen_blocks,
    settings::largest_image,
    retires::middle_and_newest,
    retires::one_after_the_other,
    retires::counts_of_two,
    retires::backup_after_the_newest,
    retires::neighbours_that_were_none,
    lookups::given_or_never,
    lookups::numbers_used_up,
    blanks::nothing_stored,
    blanks::beside_others,
    blanks::short_last_block,
    blanks::soundness,
    sent::marked,
    sent::sent_or_had,
    sent::nineteen,
    sent::the_first_segment,
    sent::two_with_one_fingerprint,
    together::in_their_order,
    together::refused_between,
    together::no_room,
    together::room_that_comes,
    together::none_and_most,
    together::refused_whole,
    dated::by_the_day,
    dated::without_a_day,
    dated::newest_that_went,
    dated::ends,
    dated::days_that_fall,
    dated::tills_apart,
    bills::three_tills,
    bills::all_tills,
    bills::empty,
    bills::two_references,
    bills::a_version_that_went,
    bills::an_older_version,
    bills::refusals,
];
