//! The calls on lent buffers: the same as the archive's, with slices for pointers and lengths. Answers are bare numbers,
//! the refusal first.

use crate::raw;
use terms::{Calls, Capacities, Closing, Message, Rights, BILL_NUMBERS, CLOSING_NUMBERS, MOST_IMAGES};

/// The proved store. Slices that are lent are valid for as long as a call lasts, lengths are theirs, and the lent
/// buffers do not overlap, since one that is written is lent to nobody else: this is all that the archive asks for.
pub struct Proved;

impl Calls for Proved {
    fn name(&self) -> &'static str {
        "proved store"
    }

    fn table_length(&self, capacities: Capacities) -> [u32; 2] {
        let [tills, versions, blocks, records, cells, bytes, segment, percent] = capacities.to_array();
        // SAFETY: no memory is lent.
        let answer =
            unsafe { raw::lurdempos_table_length(tills, versions, blocks, records, cells, bytes, segment, percent) };
        [answer.refusal, answer.words]
    }

    fn lay_out(&self, pool: &mut [u8], table: &mut [u32], capacities: Capacities) -> [u32; 1] {
        let [tills, versions, blocks, records, cells, bytes, segment, percent] = capacities.to_array();
        let (pool_len, table_len) = (pool.len(), table.len());
        let (pool, table) = (pool.as_mut_ptr(), table.as_mut_ptr());
        // SAFETY: both parts are slices, lent for writing to this call alone.
        let answer = unsafe {
            raw::lurdempos_lay_out(
                pool, pool_len, table, table_len, tills, versions, blocks, records, cells, bytes, segment, percent,
            )
        };
        [answer.refusal]
    }

    fn backup(&self, pool: &mut [u8], table: &mut [u32], user: u32, till: u32, image: &[u8]) -> [u32; 2] {
        let (bytes, words) = (pool.len(), table.len());
        let (pool, table) = (pool.as_mut_ptr(), table.as_mut_ptr());
        // SAFETY: all three are slices, the first two lent for writing to this call alone.
        let answer =
            unsafe { raw::lurdempos_backup(pool, bytes, table, words, user, till, image.as_ptr(), image.len()) };
        [answer.refusal, answer.version]
    }

    fn backup_dated(
        &self,
        pool: &mut [u8],
        table: &mut [u32],
        user: u32,
        till: u32,
        day: u32,
        image: &[u8],
    ) -> [u32; 2] {
        let (bytes, words) = (pool.len(), table.len());
        let (pool, table) = (pool.as_mut_ptr(), table.as_mut_ptr());
        // SAFETY: all three are slices, the first two lent for writing to this call alone.
        let answer = unsafe {
            raw::lurdempos_backup_dated(pool, bytes, table, words, user, till, day, image.as_ptr(), image.len())
        };
        [answer.refusal, answer.version]
    }

    fn backup_all(&self, pool: &mut [u8], table: &mut [u32], user: u32, closing: Closing) -> [u32; CLOSING_NUMBERS] {
        let Closing { tills, lengths, images } = closing;
        let (bytes, words) = (pool.len(), table.len());
        let (pool, table) = (pool.as_mut_ptr(), table.as_mut_ptr());
        // SAFETY: all five are slices, the first two lent for writing to this call alone.
        closed(unsafe {
            let (named, told, sent) = (tills.len(), lengths.len(), images.len());
            let (tills, lengths, images) = (tills.as_ptr(), lengths.as_ptr(), images.as_ptr());
            raw::lurdempos_backup_all(pool, bytes, table, words, user, tills, named, lengths, told, images, sent)
        })
    }

    fn restore(&self, pool: &[u8], table: &[u32], user: u32, till: u32, version: u32, output: &mut [u8]) -> [u32; 3] {
        let room = output.len();
        let output = output.as_mut_ptr();
        // SAFETY: all three are slices, the output lent for writing to this call alone.
        let answer = unsafe {
            let (bytes, words) = (pool.len(), table.len());
            raw::lurdempos_restore(pool.as_ptr(), bytes, table.as_ptr(), words, user, till, version, output, room)
        };
        [answer.refusal, answer.length, answer.hops]
    }

    fn retire(&self, pool: &mut [u8], table: &mut [u32], user: u32, till: u32, version: u32) -> [u32; 2] {
        let (bytes, words) = (pool.len(), table.len());
        let (pool, table) = (pool.as_mut_ptr(), table.as_mut_ptr());
        // SAFETY: both parts are slices, lent for writing to this call alone.
        let answer = unsafe { raw::lurdempos_retire(pool, bytes, table, words, user, till, version) };
        [answer.refusal, answer.length]
    }

    fn listing(&self, pool: &[u8], table: &[u32], user: u32, till: u32) -> [u32; 4] {
        // SAFETY: both parts are slices, lent for reading.
        let answer =
            unsafe { raw::lurdempos_listing(pool.as_ptr(), pool.len(), table.as_ptr(), table.len(), user, till) };
        [answer.refusal, answer.oldest, answer.newest, answer.last]
    }

    fn version_on(&self, pool: &[u8], table: &[u32], user: u32, till: u32, day: u32) -> [u32; 2] {
        let (bytes, words) = (pool.len(), table.len());
        // SAFETY: both parts are slices, lent for reading.
        let answer = unsafe { raw::lurdempos_version_on(pool.as_ptr(), bytes, table.as_ptr(), words, user, till, day) };
        [answer.refusal, answer.version]
    }

    fn tally(&self, pool: &[u8], table: &[u32], user: u32) -> [u32; 4] {
        // SAFETY: both parts are slices, lent for reading.
        let answer = unsafe { raw::lurdempos_tally(pool.as_ptr(), pool.len(), table.as_ptr(), table.len(), user) };
        [answer.refusal, answer.cells, answer.records, answer.counts]
    }

    fn bill(&self, pool: &[u8], table: &[u32], user: u32, price: u32) -> [u32; BILL_NUMBERS] {
        let (bytes, words) = (pool.len(), table.len());
        // SAFETY: both parts are slices, lent for reading.
        billed(unsafe { raw::lurdempos_bill(pool.as_ptr(), bytes, table.as_ptr(), words, user, price) })
    }

    fn set_rights(
        &self,
        pool: &[u8],
        table: &mut [u32],
        user: u32,
        subject: u32,
        till: u32,
        rights: Rights,
    ) -> [u32; 1] {
        let Rights { list, back_up, restore, retire } = rights;
        let (bytes, words) = (pool.len(), table.len());
        let (pool, table) = (pool.as_ptr(), table.as_mut_ptr());
        // SAFETY: both parts are slices, the table lent for writing to this call alone.
        let answer = unsafe {
            raw::lurdempos_set_rights(pool, bytes, table, words, user, subject, till, list, back_up, restore, retire)
        };
        [answer.refusal]
    }

    fn write_stream(
        &self,
        pool: &[u8],
        table: &[u32],
        user: u32,
        till: u32,
        version: u32,
        output: &mut [u8],
    ) -> [u32; 2] {
        let room = output.len();
        let output = output.as_mut_ptr();
        // SAFETY: all three are slices, the output lent for writing to this call alone.
        let answer = unsafe {
            let (bytes, words) = (pool.len(), table.len());
            raw::lurdempos_write_stream(pool.as_ptr(), bytes, table.as_ptr(), words, user, till, version, output, room)
        };
        [answer.refusal, answer.length]
    }

    fn read_stream(&self, stream: &[u8], output: &mut [u8]) -> [u32; 2] {
        let (bytes, room) = (stream.len(), output.len());
        // SAFETY: both are slices, the output lent for writing to this call alone.
        let answer = unsafe { raw::lurdempos_read_stream(stream.as_ptr(), bytes, output.as_mut_ptr(), room) };
        [answer.refusal, answer.length]
    }

    fn offer(
        &self,
        pool: &[u8],
        table: &[u32],
        user: u32,
        till: u32,
        fingerprints: &[u8],
        marks: &mut [u8],
    ) -> [u32; 1] {
        let (prints, count) = (fingerprints.len(), marks.len());
        let (fingerprints, marks) = (fingerprints.as_ptr(), marks.as_mut_ptr());
        // SAFETY: all four are slices, the marks lent for writing to this call alone.
        let answer = unsafe {
            let (bytes, words) = (pool.len(), table.len());
            let (pool, table) = (pool.as_ptr(), table.as_ptr());
            raw::lurdempos_offer(pool, bytes, table, words, user, till, fingerprints, prints, marks, count)
        };
        [answer.refusal]
    }

    fn backup_sent(&self, pool: &mut [u8], table: &mut [u32], user: u32, till: u32, message: Message) -> [u32; 2] {
        let Message { length, fingerprints, marks, segments } = message;
        let (bytes, words) = (pool.len(), table.len());
        let (pool, table) = (pool.as_mut_ptr(), table.as_mut_ptr());
        // SAFETY: all five are slices, the first two lent for writing to this call alone.
        let answer = unsafe {
            let (prints, count, rest) = (fingerprints.len(), marks.len(), segments.len());
            let (fingerprints, marks, segments) = (fingerprints.as_ptr(), marks.as_ptr(), segments.as_ptr());
            raw::lurdempos_backup_sent(
                pool,
                bytes,
                table,
                words,
                user,
                till,
                length,
                fingerprints,
                prints,
                marks,
                count,
                segments,
                rest,
            )
        };
        [answer.refusal, answer.version]
    }

    fn sha1(&self, message: &[u8]) -> [u32; 5] {
        // SAFETY: the message is a slice, lent for reading.
        let raw::Digest { h0, h1, h2, h3, h4 } = unsafe { raw::lurdempos_sha1(message.as_ptr(), message.len()) };
        [h0, h1, h2, h3, h4]
    }

    fn turn(&self, [tills, waiting, last]: [u32; 3]) -> [u32; 6] {
        // SAFETY: no memory is lent.
        let raw::TurnResult { answer, turn } = unsafe { raw::lurdempos_turn(raw::TurnRecord { tills, waiting, last }) };
        [answer.refusal, answer.served as u32, answer.till, turn.tills, turn.waiting, turn.last]
    }
}

/// A closing's numbers.
pub fn closed(raw::BackupAllAnswer { refusal, refusals, versions }: raw::BackupAllAnswer) -> [u32; CLOSING_NUMBERS] {
    let mut numbers = [refusal; CLOSING_NUMBERS];
    numbers[1..=MOST_IMAGES].copy_from_slice(&refusals);
    numbers[1 + MOST_IMAGES..].copy_from_slice(&versions);
    numbers
}

/// A bill's numbers.
pub fn billed(raw::BillAnswer { refusal, sums }: raw::BillAnswer) -> [u32; BILL_NUMBERS] {
    let mut numbers = [refusal; BILL_NUMBERS];
    numbers[1..].copy_from_slice(&sums);
    numbers
}
