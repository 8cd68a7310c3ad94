//! What an older version keeps when its next newer one goes.

use crate::layout::{Pointer, Record};
use crate::rows::RecordsMut;

/// Each indirect pointer of the older version takes over the pointer that it named; a direct one is counted once more.
pub fn take_over(older: &mut [u32], retired: &[u32], records: &mut RecordsMut) {
    for word in older {
        if let Some(Pointer::Indirect(block)) = Pointer::read(*word) {
            *word = retired[block];
            if let Some(Pointer::Direct(place)) = Pointer::read(*word) {
                *Record::count(&mut records[place.record], place.position) += 1;
            }
        }
    }
}
