//! The proved till version store for Rust: [`Store`] owns its two buffers, [`Chain`] those of up to eight stores;
//! [`Proved`] makes the calls on buffers that the caller lends; [`sending`] is a till's side of sending only what a
//! store lacks; [`read_stream`] reads a version that comes from another box; [`Turn`] is a dispatcher's turn record.
//! `raw` has the archive's own functions.

mod answers;
mod chain;
mod chained;
mod lent;
pub mod raw;
mod sent;
mod store;
mod stream;
mod turn;

pub use chain::Chain;
pub use lent::Proved;
pub use sent::{sending, sha1};
pub use store::{table_length, Store};
pub use stream::{image_of_stream, read_stream};
pub use terms::{
    Bill, Calls, Capacities, ChainCalls, Closing, Collected, Disk, Each, Fingerprint, Listing, Message, Part, Refusal,
    Restored, Right, Rights, Sending, Tally, Target, BASE, BLOCK, BLOCK_BYTES, FINGERPRINT, HIGHEST_PRICE, LAST_NUMBER,
    LONGEST_IMAGE, LONGEST_MESSAGE, LONGEST_STREAM, MOST_IMAGES, MOST_SEGMENTS, MOST_STORES, MOST_TILLS, NO_LIMIT,
    OWNER, SEGMENT, SEGMENT_BLOCKS, USERS,
};
pub use turn::Turn;
