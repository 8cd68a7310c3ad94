//! A table's words as docs/FORMAT.md has them, for looking things up in a sound store.

use crate::whole::Till;
use crate::Keeper;
use std::collections::BTreeSet;
use terms::{Capacities, Rights, USERS};

/// What a pointer word says.
#[derive(Clone, Copy, Debug, PartialEq, Eq)]
pub enum Kind {
    Null,
    Direct,
    /// Names this block of the next newer version.
    Indirect(usize),
    Blank,
}

pub fn kind(pointer: u32) -> Kind {
    match pointer >> 24 {
        1 => Kind::Direct,
        2 => Kind::Indirect((pointer & 0x00ff_ffff) as usize),
        3 => Kind::Blank,
        _ => Kind::Null,
    }
}

pub struct Words<'a> {
    table: &'a [u32],
    versions: usize,
    blocks: usize,
    positions: usize,
    record_words: usize,
    records_at: usize,
}

impl<'a> Words<'a> {
    pub fn new(table: &'a [u32], capacities: Capacities) -> Words<'a> {
        let [tills, versions, blocks] =
            [capacities.tills, capacities.versions, capacities.blocks].map(|one| one as usize);
        let (positions, record_words) = (capacities.segment_blocks as usize, capacities.record_words());
        let records_at = 8 + tills * (4 + versions * (3 + blocks));
        Words { table, versions, blocks, positions, record_words, records_at }
    }

    fn till_at(&self, till: usize) -> usize {
        8 + till * (4 + self.versions * (3 + self.blocks))
    }

    /// What the table says that a user may do on a till.
    pub fn rights(&self, till: usize, user: u32) -> Rights {
        Rights::of_word(self.table[self.till_at(till) + 2], user)
    }

    /// Whether the table has the keeper's rights of every user on every till.
    pub fn has_rights_of(&self, keeper: &Keeper) -> bool {
        let same = |n, till: &Till| (0..USERS).all(|user| till.rights(user) == Some(self.rights(n, user)));
        keeper.tills().iter().enumerate().all(|(n, till)| same(n, till))
    }

    /// The numbers in a till's slots that are in use, the oldest first.
    pub fn numbers(&self, till: usize) -> Vec<u32> {
        self.of_slots(till, 0)
    }

    /// The days in a till's slots that are in use, the oldest version's first.
    pub fn days(&self, till: usize) -> Vec<u32> {
        self.of_slots(till, 2)
    }

    /// Where the day of a till's newest version stands, if it has one.
    pub fn newest_day_at(&self, till: usize) -> usize {
        let (at, held) = (self.till_at(till), self.table[self.till_at(till) + 1] as usize);
        at + 4 + (held - 1) * (3 + self.blocks) + 2
    }

    /// One word of each slot that is in use.
    fn of_slots(&self, till: usize, word: usize) -> Vec<u32> {
        let (at, held) = (self.till_at(till), self.table[self.till_at(till) + 1] as usize);
        (0..held).map(|slot| self.table[at + 4 + slot * (3 + self.blocks) + word]).collect()
    }

    /// The pointer words of a slot, those past the version's last block too.
    pub fn pointers(&self, till: usize, slot: usize) -> &'a [u32] {
        let at = self.till_at(till) + 4 + slot * (3 + self.blocks) + 3;
        &self.table[at..at + self.blocks]
    }

    /// The cell that a direct pointer leads to.
    pub fn cell(&self, pointer: u32) -> usize {
        let place = (pointer & 0x00ff_ffff) as usize;
        self.table[self.records_at + place / 16 * self.record_words + 3 + place % 16] as usize
    }

    /// The segments of the records that can match: in use, none of their positions removed, no cell of 255s.
    pub fn segments(&self, pool: &[u8], bytes: usize) -> Vec<Vec<u8>> {
        let cell = |record: &[u32], i: usize| &pool[bytes * record[3 + i] as usize..][..bytes];
        let is_held = |record: &[u32], i: usize| record[0] >> i & 1 == 1;
        let of_255s = |record: &[u32], i: usize| is_held(record, i) && cell(record, i).iter().all(|&byte| byte == 255);
        let can_match =
            |record: &&[u32]| record[0] != 0 && record[1] == 0 && !(0..self.positions).any(|i| of_255s(record, i));
        let block = |record: &[u32], i: usize| match (is_held(record, i), record[2] >> i & 1) {
            (true, _) => cell(record, i).to_vec(),
            (false, blank) => vec![255 * blank as u8; bytes],
        };
        let records = self.table[self.records_at..].chunks(self.record_words).filter(can_match);
        records.map(|record| (0..self.positions).flat_map(|i| block(record, i)).collect()).collect()
    }

    /// The cells that positions name.
    pub fn named(&self) -> BTreeSet<usize> {
        let records = self.table[self.records_at..].chunks(self.record_words);
        let cells = |record: &[u32]| -> Vec<usize> {
            (0..self.positions).filter(|i| record[0] >> i & 1 == 1).map(|i| record[3 + i] as usize).collect()
        };
        records.flat_map(cells).collect()
    }
}
