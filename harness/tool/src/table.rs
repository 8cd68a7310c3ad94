//! What the words of a sound store's table say about each version and each record (docs/FORMAT.md). Only for stores
//! that the library has found sound; what the library answers itself is asked of it.

use crate::store::Store;
use lurdempos::{Capacities, Rights};

/// Words before the tills.
pub const HEADER_WORDS: usize = 8;
const TILL_WORDS: usize = 4;
/// Words of a slot before its pointers.
pub const SLOT_WORDS: usize = 3;
/// Words of a record before its cells.
pub const MASK_WORDS: usize = 3;

/// Where things begin in a table, in words.
#[derive(Clone, Copy, Debug, PartialEq, Eq)]
pub struct Layout {
    pub capacities: Capacities,
}

impl Layout {
    pub fn till(self, till: usize) -> usize {
        HEADER_WORDS + till * (TILL_WORDS + self.capacities.versions as usize * self.slot_words())
    }

    /// The word of what users 1 to 7 may do on a till.
    pub fn rights(self, till: usize) -> usize {
        self.till(till) + 2
    }

    pub fn slot(self, till: usize, slot: usize) -> usize {
        self.till(till) + TILL_WORDS + slot * self.slot_words()
    }

    /// The day of a slot.
    pub fn day(self, till: usize, slot: usize) -> usize {
        self.slot(till, slot) + 2
    }

    pub fn record(self, record: usize) -> usize {
        self.till(self.capacities.tills as usize) + record * self.capacities.record_words()
    }

    fn slot_words(self) -> usize {
        SLOT_WORDS + self.capacities.blocks as usize
    }
}

/// A pointer word.
#[derive(Clone, Copy, Debug, PartialEq, Eq)]
pub enum Pointer {
    Null,
    Direct {
        record: usize,
        position: usize,
    },
    Indirect {
        block: usize,
    },
    Blank,
    /// No store writes such a word.
    Unknown,
}

impl Pointer {
    pub fn of(word: u32) -> Pointer {
        let payload = (word & 0x00ff_ffff) as usize;
        match (word >> 24, payload) {
            (0, 0) => Pointer::Null,
            (1, _) => Pointer::Direct { record: payload / 16, position: payload % 16 },
            (2, _) => Pointer::Indirect { block: payload },
            (3, 0) => Pointer::Blank,
            _ => Pointer::Unknown,
        }
    }
}

/// A position of a record.
#[derive(Clone, Copy, Debug, PartialEq, Eq)]
pub enum Position {
    Null,
    Held { cell: usize },
    Removed,
    Blank,
}

impl Position {
    /// From the record's three masks, of held, removed and blank positions, and its cell.
    pub fn of(masks: [u32; MASK_WORDS], position: usize, cell: u32) -> Position {
        match masks.map(|mask| mask >> position & 1) {
            [1, ..] => Position::Held { cell: cell as usize },
            [_, 1, _] => Position::Removed,
            [_, _, 1] => Position::Blank,
            _ => Position::Null,
        }
    }
}

/// A held version.
pub struct Version {
    pub number: u32,
    pub bytes: u32,
    /// 0 if none is known.
    pub day: u32,
    /// How many pointers are of each kind.
    pub direct: u32,
    pub indirect: u32,
    pub null: u32,
    pub blank: u32,
    /// Where each block leads.
    pub traced: Vec<Traced>,
}

/// A block's chain: the indirect pointers followed, and the cell at its end, none for a null or blank block.
#[derive(Clone, Copy, Default)]
pub struct Traced {
    pub hops: u32,
    pub cell: Option<usize>,
}

impl Version {
    /// The most indirect pointers followed for any one block.
    pub fn chain(&self) -> u32 {
        self.traced.iter().map(|block| block.hops).max().unwrap_or(0)
    }
}

/// What a user may do on a till; nothing if there is no such till.
pub fn rights(store: &Store, till: u32, user: u32) -> Rights {
    let capacities = store.capacities();
    let word = store.table().get(Layout { capacities }.rights(till as usize)).filter(|_| till < capacities.tills);
    word.map_or(Rights::NONE, |&word| Rights::of_word(word, user))
}

/// How many versions a till holds.
pub fn held(store: &Store, till: u32) -> u32 {
    let at = Layout { capacities: store.capacities() }.till(till as usize) + 1;
    store.table().get(at).copied().unwrap_or(0)
}

/// The numbers of the versions that a till holds, the oldest first.
pub fn numbers(store: &Store, till: u32) -> Vec<u32> {
    let layout = Layout { capacities: store.capacities() };
    let number = |slot| store.table().get(layout.slot(till as usize, slot)).copied();
    (0..held(store, till) as usize).filter_map(number).collect()
}

/// The day of a version that a till holds.
pub fn day(store: &Store, till: u32, version: u32) -> u32 {
    let layout = Layout { capacities: store.capacities() };
    let slot = numbers(store, till).into_iter().position(|number| number == version);
    let word = slot.and_then(|slot| store.table().get(layout.day(till as usize, slot)));
    word.copied().unwrap_or(0)
}

/// The held versions of each till, the oldest first.
pub fn tills(store: &Store) -> Vec<Vec<Version>> {
    let (tills, records) = (store.capacities().tills, records(store));
    (0..tills).map(|till| versions(store, till, &records)).collect()
}

/// A till's versions. The newest is read first, since chains lead to newer ones.
fn versions(store: &Store, till: u32, records: &[Vec<Position>]) -> Vec<Version> {
    let layout = Layout { capacities: store.capacities() };
    let mut versions: Vec<Version> = Vec::new();
    for slot in (0..held(store, till) as usize).rev() {
        let newer = versions.last().map_or(&[][..], |newer| &newer.traced);
        let words = store.table().get(layout.slot(till as usize, slot)..).unwrap_or_default();
        let version = version(words, layout.capacities, newer, records);
        versions.push(version);
    }
    versions.reverse();
    versions
}

fn version(slot: &[u32], capacities: Capacities, newer: &[Traced], records: &[Vec<Position>]) -> Version {
    let (number, bytes, day) = (slot[0], slot[1], slot[2]);
    let blocks = bytes.div_ceil(capacities.block_bytes) as usize;
    let mut version = Version { number, bytes, day, direct: 0, indirect: 0, null: 0, blank: 0, traced: Vec::new() };
    for &word in slot.iter().skip(SLOT_WORDS).take(blocks) {
        let traced = match Pointer::of(word) {
            Pointer::Direct { record, position } => {
                version.direct += 1;
                Traced { hops: 0, cell: cell_of(records, record, position) }
            }
            Pointer::Indirect { block } => {
                version.indirect += 1;
                let next = newer.get(block).copied().unwrap_or_default();
                Traced { hops: next.hops + 1, ..next }
            }
            Pointer::Blank => {
                version.blank += 1;
                Traced::default()
            }
            Pointer::Null | Pointer::Unknown => {
                version.null += 1;
                Traced::default()
            }
        };
        version.traced.push(traced);
    }
    version
}

fn cell_of(records: &[Vec<Position>], record: usize, position: usize) -> Option<usize> {
    match records.get(record)?.get(position)? {
        Position::Held { cell } => Some(*cell),
        _ => None,
    }
}

/// The positions of each record.
pub fn records(store: &Store) -> Vec<Vec<Position>> {
    let capacities = store.capacities();
    let words = store.table().get(Layout { capacities }.record(0)..).unwrap_or_default();
    let one = |words: &[u32]| {
        let position = |n: usize| Position::of([words[0], words[1], words[2]], n, words[MASK_WORDS + n]);
        (0..capacities.segment_blocks as usize).map(position).collect()
    };
    words.chunks_exact(capacities.record_words()).map(one).collect()
}
