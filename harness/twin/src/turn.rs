//! Step 2 of a backup: the previous version's pointers turn blank, or to the new version where its blocks are.

use crate::era::Era;
use crate::layout::{Place, Pointer, Record};
use crate::rows::{Blocks, Records};
use std::collections::HashMap;

/// Turns each direct pointer to a blank block into a blank one, whatever the new image has, and each other one whose
/// block equals one of the new image's into an indirect one, to the lowest such block. Gives the positions let go of.
pub fn turn(pointers: &mut [u32], era: Era, blocks: Blocks, cells: Blocks, records: Records) -> Vec<Place> {
    let mut lowest = HashMap::with_capacity(blocks.iter().len());
    for (n, block) in blocks.iter().enumerate() {
        lowest.entry(block).or_insert(n);
    }
    let mut let_go = Vec::new();
    for word in pointers {
        if let Some(Pointer::Direct(place)) = Pointer::read(*word) {
            let block = &cells[Record::cell(&records[place.record], place.position)];
            let equal = || lowest.get(block).map(|&n| Pointer::Indirect(n));
            let turned = if era.is_blank(block) { Some(Pointer::Blank) } else { equal() };
            if let Some(pointer) = turned {
                *word = pointer.word();
                let_go.push(place);
            }
        }
    }
    let_go
}
