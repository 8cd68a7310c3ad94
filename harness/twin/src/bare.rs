//! The twin's calls with answers as bare numbers.

use crate::Era;
use terms::{numbers, Calls, Capacities, Closing, Message, Rights, BILL_NUMBERS, CLOSING_NUMBERS};

/// The twin, where a test can be put to more than one store.
pub struct Twin;

/// A backup as it was made before blank blocks were known, and before there were users.
pub fn earlier(pool: &mut [u8], table: &mut [u32], till: u32, image: &[u8]) -> [u32; 2] {
    numbers(crate::backup_by(Era::BeforeBlanks, pool, table, till, image))
}

impl Calls for Twin {
    fn name(&self) -> &'static str {
        "twin"
    }

    fn table_length(&self, capacities: Capacities) -> [u32; 2] {
        numbers(crate::table_length(capacities).map(|words| words as u32))
    }

    fn lay_out(&self, pool: &mut [u8], table: &mut [u32], capacities: Capacities) -> [u32; 1] {
        numbers(crate::lay_out(pool, table, capacities))
    }

    fn backup(&self, pool: &mut [u8], table: &mut [u32], user: u32, till: u32, image: &[u8]) -> [u32; 2] {
        numbers(crate::backup(pool, table, user, till, image))
    }

    fn backup_dated(
        &self,
        pool: &mut [u8],
        table: &mut [u32],
        user: u32,
        till: u32,
        day: u32,
        image: &[u8],
    ) -> [u32; 2] {
        numbers(crate::backup_dated(pool, table, user, till, day, image))
    }

    fn backup_all(&self, pool: &mut [u8], table: &mut [u32], user: u32, closing: Closing) -> [u32; CLOSING_NUMBERS] {
        numbers(crate::backup_all(pool, table, user, closing))
    }

    fn restore(&self, pool: &[u8], table: &[u32], user: u32, till: u32, version: u32, output: &mut [u8]) -> [u32; 3] {
        numbers(crate::restore(pool, table, user, till, version, output))
    }

    fn retire(&self, pool: &mut [u8], table: &mut [u32], user: u32, till: u32, version: u32) -> [u32; 2] {
        numbers(crate::retire(pool, table, user, till, version))
    }

    fn listing(&self, pool: &[u8], table: &[u32], user: u32, till: u32) -> [u32; 4] {
        numbers(crate::listing(pool, table, user, till))
    }

    fn version_on(&self, pool: &[u8], table: &[u32], user: u32, till: u32, day: u32) -> [u32; 2] {
        numbers(crate::version_on(pool, table, user, till, day))
    }

    fn tally(&self, pool: &[u8], table: &[u32], user: u32) -> [u32; 4] {
        numbers(crate::tally(pool, table, user))
    }

    fn bill(&self, pool: &[u8], table: &[u32], user: u32, price: u32) -> [u32; BILL_NUMBERS] {
        numbers(crate::bill(pool, table, user, price))
    }

    fn set_rights(
        &self,
        pool: &[u8],
        table: &mut [u32],
        user: u32,
        subject: u32,
        till: u32,
        rights: Rights,
    ) -> [u32; 1] {
        numbers(crate::set_rights(pool, table, user, subject, till, rights))
    }

    fn write_stream(
        &self,
        pool: &[u8],
        table: &[u32],
        user: u32,
        till: u32,
        version: u32,
        output: &mut [u8],
    ) -> [u32; 2] {
        numbers(crate::write_stream(pool, table, user, till, version, output))
    }

    fn read_stream(&self, stream: &[u8], output: &mut [u8]) -> [u32; 2] {
        numbers(crate::read_stream(stream, output))
    }

    fn offer(
        &self,
        pool: &[u8],
        table: &[u32],
        user: u32,
        till: u32,
        fingerprints: &[u8],
        marks: &mut [u8],
    ) -> [u32; 1] {
        numbers(crate::offer(pool, table, user, till, fingerprints, marks))
    }

    fn backup_sent(&self, pool: &mut [u8], table: &mut [u32], user: u32, till: u32, message: Message) -> [u32; 2] {
        numbers(crate::backup_sent(pool, table, user, till, message))
    }

    fn sha1(&self, message: &[u8]) -> [u32; 5] {
        crate::sha1(message)
    }

    fn turn(&self, mut record: [u32; 3]) -> [u32; 6] {
        let [tills, waiting, last] = &mut record;
        let [refusal, served, till] = match crate::take_turn(*tills, waiting, last) {
            Ok(Some(till)) => [0, 1, till],
            Ok(None) => [0; 3],
            Err(refusal) => [refusal.number(), 0, 0],
        };
        let [tills, waiting, last] = record;
        [refusal, served, till, tills, waiting, last]
    }
}
