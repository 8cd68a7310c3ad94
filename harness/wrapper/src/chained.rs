//! The calls on a chain, with a disk for the archive's four slices. Answers are bare numbers, the refusal first.

use crate::lent::{billed, closed, Proved};
use crate::raw;
use terms::{ChainCalls, Closing, Disk, Message, Rights, Target, BILL_NUMBERS, CLOSING_NUMBERS};

/// A call of the archive on a disk: pointers and lengths of its two buffers and its two lists, then the call's own
/// arguments. The buffers are lent by `as_ptr` for reading and by `as_mut_ptr` for writing.
macro_rules! on_disk {
    ($call:ident, $disk:ident, $pools:ident, $tables:ident, $($own:expr),+) => {{
        let Disk { pools, tables, pool_lengths, table_lengths } = $disk;
        let (bytes, words) = (pools.len(), tables.len());
        // SAFETY: all four are vectors and lent whole, those for writing to this call alone. A pointer among the call's
        // own arguments is a slice's, beside that slice's length.
        unsafe {
            raw::$call(
                pools.$pools(),
                bytes,
                tables.$tables(),
                words,
                pool_lengths.as_ptr(),
                pool_lengths.len(),
                table_lengths.as_ptr(),
                table_lengths.len(),
                $($own),+
            )
        }
    }};
}

/// The same with both buffers for reading.
macro_rules! reading {
    ($call:ident, $disk:ident, $($own:expr),+) => { on_disk!($call, $disk, as_ptr, as_ptr, $($own),+) };
}

/// The same with both buffers for writing.
macro_rules! writing {
    ($call:ident, $disk:ident, $($own:expr),+) => { on_disk!($call, $disk, as_mut_ptr, as_mut_ptr, $($own),+) };
}

impl ChainCalls for Proved {
    fn chain_backup(&self, disk: &mut Disk, target: Target, user: u32, till: u32, image: &[u8]) -> [u32; 2] {
        let Target { store, limit } = target;
        let answer = writing!(lurdempos_chain_backup, disk, store, limit, user, till, image.as_ptr(), image.len());
        [answer.refusal, answer.version]
    }

    fn chain_backup_dated(
        &self,
        disk: &mut Disk,
        target: Target,
        user: u32,
        till: u32,
        day: u32,
        image: &[u8],
    ) -> [u32; 2] {
        let Target { store, limit } = target;
        let (bytes, image) = (image.len(), image.as_ptr());
        let answer = writing!(lurdempos_chain_backup_dated, disk, store, limit, user, till, day, image, bytes);
        [answer.refusal, answer.version]
    }

    fn chain_backup_sent(&self, disk: &mut Disk, target: Target, user: u32, till: u32, message: Message) -> [u32; 2] {
        let Target { store, limit } = target;
        let Message { length, fingerprints, marks, segments } = message;
        let answer = writing!(
            lurdempos_chain_backup_sent,
            disk,
            store,
            limit,
            user,
            till,
            length,
            fingerprints.as_ptr(),
            fingerprints.len(),
            marks.as_ptr(),
            marks.len(),
            segments.as_ptr(),
            segments.len()
        );
        [answer.refusal, answer.version]
    }

    fn chain_backup_all(&self, disk: &mut Disk, target: Target, user: u32, closing: Closing) -> [u32; CLOSING_NUMBERS] {
        let Target { store, limit } = target;
        let Closing { tills, lengths, images } = closing;
        closed(writing!(
            lurdempos_chain_backup_all,
            disk,
            store,
            limit,
            user,
            tills.as_ptr(),
            tills.len(),
            lengths.as_ptr(),
            lengths.len(),
            images.as_ptr(),
            images.len()
        ))
    }

    fn chain_restore(
        &self,
        disk: &Disk,
        store: u32,
        user: u32,
        till: u32,
        version: u32,
        output: &mut [u8],
    ) -> [u32; 3] {
        let (room, output) = (output.len(), output.as_mut_ptr());
        let answer = reading!(lurdempos_chain_restore, disk, store, user, till, version, output, room);
        [answer.refusal, answer.length, answer.hops]
    }

    fn chain_retire(&self, disk: &mut Disk, store: u32, user: u32, till: u32, version: u32) -> [u32; 2] {
        let answer = writing!(lurdempos_chain_retire, disk, store, user, till, version);
        [answer.refusal, answer.length]
    }

    fn chain_listing(&self, disk: &Disk, store: u32, user: u32, till: u32) -> [u32; 4] {
        let answer = reading!(lurdempos_chain_listing, disk, store, user, till);
        [answer.refusal, answer.oldest, answer.newest, answer.last]
    }

    fn chain_version_on(&self, disk: &Disk, store: u32, user: u32, till: u32, day: u32) -> [u32; 2] {
        let answer = reading!(lurdempos_chain_version_on, disk, store, user, till, day);
        [answer.refusal, answer.version]
    }

    fn chain_tally(&self, disk: &Disk, store: u32, user: u32) -> [u32; 4] {
        let answer = reading!(lurdempos_chain_tally, disk, store, user);
        [answer.refusal, answer.cells, answer.records, answer.counts]
    }

    fn chain_bill(&self, disk: &Disk, store: u32, user: u32, price: u32) -> [u32; BILL_NUMBERS] {
        billed(reading!(lurdempos_chain_bill, disk, store, user, price))
    }

    fn chain_write_stream(
        &self,
        disk: &Disk,
        store: u32,
        user: u32,
        till: u32,
        version: u32,
        output: &mut [u8],
    ) -> [u32; 2] {
        let (room, output) = (output.len(), output.as_mut_ptr());
        let answer = reading!(lurdempos_chain_write_stream, disk, store, user, till, version, output, room);
        [answer.refusal, answer.length]
    }

    fn chain_offer(
        &self,
        disk: &Disk,
        store: u32,
        user: u32,
        till: u32,
        fingerprints: &[u8],
        marks: &mut [u8],
    ) -> [u32; 1] {
        let (prints, count) = (fingerprints.len(), marks.len());
        let (fingerprints, marks) = (fingerprints.as_ptr(), marks.as_mut_ptr());
        let answer = reading!(lurdempos_chain_offer, disk, store, user, till, fingerprints, prints, marks, count);
        [answer.refusal]
    }

    fn chain_set_rights(
        &self,
        disk: &mut Disk,
        store: u32,
        user: u32,
        subject: u32,
        till: u32,
        rights: Rights,
    ) -> [u32; 1] {
        let Rights { list, back_up, restore, retire } = rights;
        let answer = on_disk!(
            lurdempos_chain_set_rights,
            disk,
            as_ptr,
            as_mut_ptr,
            store,
            user,
            subject,
            till,
            list,
            back_up,
            restore,
            retire
        );
        [answer.refusal]
    }
}
