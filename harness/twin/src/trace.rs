//! Tracing a block to where its bytes are.

use crate::layout::{Place, Pointer, TillWords};

/// What a block is traced to.
#[derive(Clone, Copy, Debug, PartialEq, Eq)]
pub enum End {
    Null,
    Blank,
    Held(Place),
}

/// Follows indirect pointers, each to the next newer version, up to one that is not indirect: what that one says, and
/// how many were followed. The till's pointers must be sound.
pub fn trace(till: TillWords, slot: usize, block: usize) -> (End, u32) {
    let (mut slot, mut block, mut hops) = (slot, block, 0);
    loop {
        match Pointer::read(till.pointer(slot, block)) {
            Some(Pointer::Direct(place)) => return (End::Held(place), hops),
            Some(Pointer::Indirect(newer)) => (slot, block, hops) = (slot + 1, newer, hops + 1),
            Some(Pointer::Blank) => return (End::Blank, hops),
            Some(Pointer::Null) | None => return (End::Null, hops),
        }
    }
}
