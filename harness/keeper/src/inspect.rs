//! What the page claims of pool and table after every list of calls, looked up in the words themselves.

use crate::images::blocks_of;
use crate::whole::Till;
use crate::words::{kind, Kind, Words};
use crate::Keeper;
use std::collections::{BTreeSet, HashSet};
use terms::Capacities;

fn is_null(block: &[u8]) -> bool {
    block.iter().all(|&byte| byte == 0)
}

fn is_blank(block: &[u8]) -> bool {
    block.iter().all(|&byte| byte == 255)
}

/// The slots have the keeper's numbers and days, the tills its rights. The occupied cells, the cells that are not zero and the cells that direct
/// pointers lead to are the same ones. The blocks of an image are the store's.
pub fn inspect(pool: &[u8], table: &[u32], keeper: &Keeper) {
    let capacities = Capacities::of_table(table).expect("a sound store");
    let (words, bytes) = (Words::new(table, capacities), capacities.block_bytes as usize);
    let filled: BTreeSet<usize> =
        pool.chunks(bytes).enumerate().filter(|(_, cell)| !is_null(cell)).map(|(n, _)| n).collect();
    assert!(words.has_rights_of(keeper), "rights");
    let mut led_to = BTreeSet::new();
    for (n, till) in keeper.tills().iter().enumerate() {
        assert!(words.numbers(n).iter().eq(till.held.keys()), "numbers of till {n}");
        assert!(words.days(n).into_iter().eq(till.days()), "days of till {n}");
        led_to.extend(inspect_till(&words, n, till, bytes));
    }
    assert!(filled == words.named(), "cells that are not zero and cells that positions name");
    assert!(filled == led_to, "cells that are not zero and cells that pointers lead to");
}

/// What is said of days after every list of calls from a freshly laid out store: from an older version to a newer one
/// of its till they never fall.
pub fn days_never_fall(table: &[u32]) {
    let capacities = Capacities::of_table(table).expect("a sound store");
    let words = Words::new(table, capacities);
    for till in 0..capacities.tills as usize {
        assert!(words.days(till).is_sorted(), "days of till {till}: {:?}", words.days(till));
    }
}

/// No block that the next newer image has too is pointed to directly, if the older version was the till's newest when
/// the newer one was taken. Only blank blocks have blank pointers, and all have them in a version that knows of blanks.
/// Gives the cells that direct pointers lead to.
fn inspect_till(words: &Words, number: usize, till: &Till, bytes: usize) -> Vec<usize> {
    let mut led_to = Vec::new();
    let (mut newer, mut previous) = (HashSet::new(), 0);
    for (slot, (&version, kept)) in till.held.iter().enumerate().rev() {
        let blocks = blocks_of(&kept.image, bytes);
        for (b, (block, &pointer)) in blocks.iter().zip(words.pointers(number, slot)).enumerate() {
            assert_eq!(pointer == 0, is_null(block), "null pointers are those of null blocks");
            let (pointed, blank) = (kind(pointer) == Kind::Blank, is_blank(block));
            assert!(!pointed || blank, "till {number}, version {version}, block {b} is not blank");
            assert!(pointed || !blank || !kept.knows_blanks, "till {number}, version {version}, block {b} is blank");
            if kind(pointer) == Kind::Direct {
                let shared = previous == version && newer.contains(block);
                assert!(!shared, "till {number}, version {version}, block {b} is in the next newer image");
                led_to.push(words.cell(pointer));
            }
        }
        (newer, previous) = (blocks.into_iter().collect(), kept.previous);
    }
    led_to
}
