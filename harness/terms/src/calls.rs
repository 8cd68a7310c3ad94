//! The calls with answers as bare numbers, so that one test can be put to the proved store and to the twin.

use crate::{Capacities, Closing, Listing, Message, Refusal, Restored, Rights, Tally, BILL_NUMBERS, CLOSING_NUMBERS};

/// The calls on lent buffers. Every call on a store but laying out names its user behind the table. An answer is the
/// refusal's number, 0 if the call is accepted, then the page's fields.
pub trait Calls {
    fn name(&self) -> &'static str;
    fn table_length(&self, capacities: Capacities) -> [u32; 2];
    fn lay_out(&self, pool: &mut [u8], table: &mut [u32], capacities: Capacities) -> [u32; 1];
    fn backup(&self, pool: &mut [u8], table: &mut [u32], user: u32, till: u32, image: &[u8]) -> [u32; 2];
    /// A backup with a day. Every other one takes the day of the till's newest held version, or 0 if none is held.
    fn backup_dated(
        &self,
        pool: &mut [u8],
        table: &mut [u32],
        user: u32,
        till: u32,
        day: u32,
        image: &[u8],
    ) -> [u32; 2];
    /// Files several images, each as a backup does. Answers the refusal of the whole, then each image's refusal, then each
    /// image's version, in as many places as a closing can have images.
    fn backup_all(&self, pool: &mut [u8], table: &mut [u32], user: u32, closing: Closing) -> [u32; CLOSING_NUMBERS];
    fn restore(&self, pool: &[u8], table: &[u32], user: u32, till: u32, version: u32, output: &mut [u8]) -> [u32; 3];
    fn retire(&self, pool: &mut [u8], table: &mut [u32], user: u32, till: u32, version: u32) -> [u32; 2];
    fn listing(&self, pool: &[u8], table: &[u32], user: u32, till: u32) -> [u32; 4];
    /// The newest held version of a till that is not after a day.
    fn version_on(&self, pool: &[u8], table: &[u32], user: u32, till: u32, day: u32) -> [u32; 2];
    fn tally(&self, pool: &[u8], table: &[u32], user: u32) -> [u32; 4];
    /// What each till's share of the storage costs, by the price of a cell in tenths of a cent. Answers the refusal, then
    /// the sum of each till, in as many places as a store can have tills.
    fn bill(&self, pool: &[u8], table: &[u32], user: u32, price: u32) -> [u32; BILL_NUMBERS];
    /// Sets the four rights of a user, the subject, on a till. The pool is only looked at.
    fn set_rights(
        &self,
        pool: &[u8],
        table: &mut [u32],
        user: u32,
        subject: u32,
        till: u32,
        rights: Rights,
    ) -> [u32; 1];
    fn write_stream(
        &self,
        pool: &[u8],
        table: &[u32],
        user: u32,
        till: u32,
        version: u32,
        output: &mut [u8],
    ) -> [u32; 2];
    /// Reads a stream into an image. It needs no store.
    fn read_stream(&self, stream: &[u8], output: &mut [u8]) -> [u32; 2];
    /// Marks with 1, else 0, each segment that the store has, by their fingerprints.
    fn offer(
        &self,
        pool: &[u8],
        table: &[u32],
        user: u32,
        till: u32,
        fingerprints: &[u8],
        marks: &mut [u8],
    ) -> [u32; 1];
    /// Files the image that a message and the store make together.
    fn backup_sent(&self, pool: &mut [u8], table: &mut [u32], user: u32, till: u32, message: Message) -> [u32; 2];
    /// The five words of a message's SHA-1. It needs no store.
    fn sha1(&self, message: &[u8]) -> [u32; 5];
    /// A turn of a record of tills, marks of those waiting and last till, which stands apart from any store. Answers the
    /// refusal, 1 if a till is served, that till, and the record after it.
    fn turn(&self, record: [u32; 3]) -> [u32; 6];
}

/// A backup alone, such as one by an earlier rule, when there were no users.
pub type Backup = fn(&mut [u8], &mut [u32], u32, &[u8]) -> [u32; 2];

/// An accepted answer as bare numbers, and back.
pub trait Fields<const N: usize> {
    fn fields(self) -> [u32; N];
    /// From the fields behind the refusal's, which is 0.
    fn of_fields(fields: [u32; N]) -> Self;
}

impl Fields<1> for () {
    fn fields(self) -> [u32; 1] {
        [0]
    }

    fn of_fields(_: [u32; 1]) {}
}

impl Fields<2> for u32 {
    fn fields(self) -> [u32; 2] {
        [0, self]
    }

    fn of_fields([_, one]: [u32; 2]) -> u32 {
        one
    }
}

impl Fields<3> for Restored {
    fn fields(self) -> [u32; 3] {
        [0, self.length, self.hops]
    }

    fn of_fields([_, length, hops]: [u32; 3]) -> Restored {
        Restored { length, hops }
    }
}

impl Fields<4> for Listing {
    fn fields(self) -> [u32; 4] {
        [0, self.oldest, self.newest, self.last]
    }

    fn of_fields([_, oldest, newest, last]: [u32; 4]) -> Listing {
        Listing { oldest, newest, last }
    }
}

impl Fields<4> for Tally {
    fn fields(self) -> [u32; 4] {
        [0, self.cells, self.records, self.counts]
    }

    fn of_fields([_, cells, records, counts]: [u32; 4]) -> Tally {
        Tally { cells, records, counts }
    }
}

/// An answer as bare numbers: with a refusal every other field is 0.
pub fn numbers<const N: usize>(answer: Result<impl Fields<N>, Refusal>) -> [u32; N] {
    answer.map_or_else(
        |refusal| std::array::from_fn(|i| if i == 0 { refusal.number() } else { 0 }),
        |accepted| accepted.fields(),
    )
}

/// The answer that bare numbers are.
pub fn answer<const N: usize, T: Fields<N>>(numbers: [u32; N]) -> Result<T, Refusal> {
    accepted(numbers[0]).map(|()| T::of_fields(numbers))
}

/// The refusal of this number, or none for 0.
pub fn accepted(number: u32) -> Result<(), Refusal> {
    match number {
        0 => Ok(()),
        _ => Err(Refusal::from_number(number).expect("the page has this number")),
    }
}
