//! The store's terms, shared by the wrapper, the twin and the tests: capacities, answers and refusals.

mod bill;
mod calls;
mod capacities;
mod chain;
mod closing;
mod refusal;
mod rights;
mod sending;

pub use bill::{Bill, BILL_NUMBERS, HIGHEST_PRICE, MOST_TILLS};
pub use calls::{accepted, answer, numbers, Backup, Calls, Fields};
pub use capacities::{Capacities, BASE, BLOCK_BYTES, LONGEST_IMAGE, SEGMENT_BLOCKS};
pub use chain::{ChainCalls, Disk, Part, PartMut, Target, MOST_STORES, NO_LIMIT};
pub use closing::{Closing, Collected, Each, CLOSING_NUMBERS, MOST_IMAGES};
pub use refusal::Refusal;
pub use rights::{Right, Rights, OWNER, USERS};
pub use sending::{fingerprint, Fingerprint, Message, Sending, FINGERPRINT, LONGEST_MESSAGE, MOST_SEGMENTS};

/// Bytes of a block of the page's measures.
pub const BLOCK: usize = BASE[0] as usize;
/// Blocks of a segment of the page's measures.
pub const SEGMENT: usize = BASE[1] as usize;
/// The last version number that a till can give.
pub const LAST_NUMBER: u32 = 65_535;

/// Bytes of the longest stream: an image of 65,536 bytes without a null block.
pub const LONGEST_STREAM: usize = 4 + LONGEST_IMAGE as usize / (SEGMENT * BLOCK) * (1 + SEGMENT * BLOCK);

/// What a listing of a till answers.
#[derive(Clone, Copy, Debug, Default, PartialEq, Eq)]
pub struct Listing {
    /// The oldest held number, 0 if none is held.
    pub oldest: u32,
    /// The newest held number, 0 if none is held.
    pub newest: u32,
    /// The last number given, 0 before the first.
    pub last: u32,
}

/// What a tally answers.
#[derive(Clone, Copy, Debug, Default, PartialEq, Eq)]
pub struct Tally {
    /// Occupied cells.
    pub cells: u32,
    /// Records in use.
    pub records: u32,
    /// The sum of all counts.
    pub counts: u32,
}

/// What a restore answers.
#[derive(Clone, Copy, Debug, Default, PartialEq, Eq)]
pub struct Restored {
    /// The version's length in bytes.
    pub length: u32,
    /// The longest chain: the most indirect pointers followed for any one block.
    pub hops: u32,
}
