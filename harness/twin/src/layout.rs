//! Where the table's words stand, and what a pointer word and a record's words say (docs/FORMAT.md).

use crate::era::Masks;
use crate::rows::{Blocks, BlocksMut, Records, RecordsMut, Rows};
use terms::{Capacities, Refusal};

pub const HEADER: usize = 8;
pub const TILL_HEAD: usize = 4;
/// The word of a till's head that has what users 1 to 7 may do.
pub const RIGHTS: usize = 2;
pub const SLOT_HEAD: usize = 3;
pub const RECORD_HEAD: usize = 3;

/// Most positions that a record can have.
pub const POSITIONS: usize = 16;

/// The capacities as sizes, and the places that follow from them.
#[derive(Clone, Copy, Debug)]
pub struct Layout {
    pub tills: usize,
    pub versions: usize,
    pub blocks: usize,
    pub records: usize,
    pub cells: usize,
    /// Bytes of a block, and of a cell.
    pub bytes: usize,
    /// Blocks of a segment, and positions of a record.
    pub positions: usize,
    /// The rebuild percentage.
    pub percent: usize,
}

impl Layout {
    pub fn new(capacities: Capacities) -> Option<Layout> {
        let [tills, versions, blocks, records, cells, bytes, positions, percent] =
            capacities.to_array().map(|one| one as usize);
        let layout = Layout { tills, versions, blocks, records, cells, bytes, positions, percent };
        capacities.in_range().then_some(layout)
    }

    pub fn slot_words(&self) -> usize {
        SLOT_HEAD + self.blocks
    }

    pub fn till_words(&self) -> usize {
        TILL_HEAD + self.versions * self.slot_words()
    }

    pub fn record_words(&self) -> usize {
        RECORD_HEAD + 2 * self.positions
    }

    pub fn segment_bytes(&self) -> usize {
        self.positions * self.bytes
    }

    /// Where a till's words begin.
    pub fn till_at(&self, till: usize) -> usize {
        HEADER + till * self.till_words()
    }

    /// Where the records begin.
    pub fn records_at(&self) -> usize {
        self.till_at(self.tills)
    }

    pub fn table_words(&self) -> usize {
        self.records_at() + self.records * self.record_words()
    }

    /// The till of this number, or refusal 3.
    pub fn till(&self, till: u32) -> Result<usize, Refusal> {
        Some(till as usize).filter(|&till| till < self.tills).ok_or(Refusal::NoSuchTill)
    }

    /// A till's words.
    pub fn till_of<'a>(&self, table: &'a [u32], till: usize) -> TillWords<'a> {
        let words = &table[self.till_at(till)..self.till_at(till + 1)];
        TillWords { words, slot_words: self.slot_words() }
    }

    pub fn cells_of<'a>(&self, pool: &'a [u8]) -> Blocks<'a> {
        Rows::new(pool, self.bytes)
    }

    pub fn cells_of_mut<'a>(&self, pool: &'a mut [u8]) -> BlocksMut<'a> {
        Rows::new(pool, self.bytes)
    }

    pub fn records_of<'a>(&self, table: &'a [u32]) -> Records<'a> {
        Rows::new(&table[self.records_at()..], self.record_words())
    }

    /// The words before the records, and the records.
    pub fn parts<'a>(&self, table: &'a mut [u32]) -> (&'a mut [u32], RecordsMut<'a>) {
        let (words, records) = table.split_at_mut(self.records_at());
        (words, Rows::new(records, self.record_words()))
    }
}

/// A till as its words.
#[derive(Clone, Copy)]
pub struct TillWords<'a> {
    words: &'a [u32],
    slot_words: usize,
}

impl<'a> TillWords<'a> {
    pub fn last(&self) -> u32 {
        self.words[0]
    }

    pub fn held(&self) -> usize {
        self.words[1] as usize
    }

    /// What users 1 to 7 may do, four bits for each.
    pub fn rights(&self) -> u32 {
        self.words[RIGHTS]
    }

    /// The numbers held, rising.
    pub fn numbers(&self) -> impl Iterator<Item = u32> + '_ {
        (0..self.held()).map(|slot| self.number(slot))
    }

    pub fn number(&self, slot: usize) -> u32 {
        self.slot(slot)[0]
    }

    /// The slot of a held version; or refusal 17 for a number that is 0 or above the last given, and 18 for one that
    /// was given before.
    pub fn slot_with(&self, version: u32) -> Result<usize, Refusal> {
        let slot = self.numbers().position(|number| number == version);
        let never = version == 0 || version > self.last();
        slot.ok_or(if never { Refusal::NeverGiven } else { Refusal::NoLongerHeld })
    }

    fn slot(&self, slot: usize) -> &'a [u32] {
        let at = TILL_HEAD + slot * self.slot_words;
        &self.words[at..at + self.slot_words]
    }

    pub fn length(&self, slot: usize) -> usize {
        self.slot(slot)[1] as usize
    }

    /// The day of a held version.
    pub fn day(&self, slot: usize) -> u32 {
        self.slot(slot)[2]
    }

    /// The day of the newest held version, or 0 if none is held.
    pub fn newest_day(&self) -> u32 {
        self.held().checked_sub(1).map_or(0, |newest| self.day(newest))
    }

    /// The pointer word of one block.
    pub fn pointer(&self, slot: usize, block: usize) -> u32 {
        self.pointers(slot)[block]
    }

    /// The pointer words of a slot, with those of the blocks that its version has not, which are null.
    pub fn pointers(&self, slot: usize) -> &'a [u32] {
        &self.slot(slot)[SLOT_HEAD..]
    }
}

/// A position of a record.
#[derive(Clone, Copy, Debug, PartialEq, Eq, PartialOrd, Ord)]
pub struct Place {
    pub record: usize,
    pub position: usize,
}

#[derive(Clone, Copy, Debug, PartialEq, Eq)]
pub enum Pointer {
    Null,
    Direct(Place),
    Indirect(usize),
    Blank,
}

/// The two words that are a pointer of their kind by themselves.
const NULL: u32 = 0;
const BLANK: u32 = 3 << 24;

impl Pointer {
    /// None if the word is of no kind. Ranges are left to the check.
    pub fn read(word: u32) -> Option<Pointer> {
        let payload = (word & 0x00ff_ffff) as usize;
        match word >> 24 {
            1 => Some(Pointer::Direct(Place { record: payload / POSITIONS, position: payload % POSITIONS })),
            2 => Some(Pointer::Indirect(payload)),
            _ if word == NULL => Some(Pointer::Null),
            _ if word == BLANK => Some(Pointer::Blank),
            _ => None,
        }
    }

    pub fn word(self) -> u32 {
        match self {
            Pointer::Null => NULL,
            Pointer::Direct(place) => 1 << 24 | (POSITIONS * place.record + place.position) as u32,
            Pointer::Indirect(block) => 2 << 24 | block as u32,
            Pointer::Blank => BLANK,
        }
    }
}

/// A segment record by value: its three masks, and a cell and a count for each position.
#[derive(Clone, Copy, Debug, Default)]
pub struct Record {
    pub held: u32,
    pub removed: u32,
    pub blank: u32,
    pub cells: [u32; POSITIONS],
    pub counts: [u32; POSITIONS],
}

impl Record {
    pub fn read(words: &[u32]) -> Record {
        let (cells, counts) = Record::places(words);
        let filled = |some: &[u32]| std::array::from_fn(|i| some.get(i).copied().unwrap_or(0));
        let [held, removed, blank] = [words[0], words[1], words[2]];
        Record { held, removed, blank, cells: filled(cells), counts: filled(counts) }
    }

    pub fn write(&self, words: &mut [u32]) {
        let (head, places) = words.split_at_mut(RECORD_HEAD);
        let positions = places.len() / 2;
        let (cells, counts) = places.split_at_mut(positions);
        head.copy_from_slice(&[self.held, self.removed, self.blank]);
        cells.copy_from_slice(&self.cells[..positions]);
        counts.copy_from_slice(&self.counts[..positions]);
    }

    /// The cells and the counts of a record's words.
    pub fn places(words: &[u32]) -> (&[u32], &[u32]) {
        let places = &words[RECORD_HEAD..];
        places.split_at(places.len() / 2)
    }

    pub fn is_free(words: &[u32]) -> bool {
        words[0] == 0
    }

    /// In use, and no position removed.
    pub fn is_whole(words: &[u32]) -> bool {
        words[0] != 0 && words[1] == 0
    }

    /// Which positions are held, and which are blank.
    pub fn masks(words: &[u32]) -> Masks {
        Masks { held: words[0], blank: words[2] }
    }

    pub fn cell(words: &[u32], position: usize) -> usize {
        words[RECORD_HEAD + position] as usize
    }

    pub fn count(words: &mut [u32], position: usize) -> &mut u32 {
        let positions = (words.len() - RECORD_HEAD) / 2;
        &mut words[RECORD_HEAD + positions + position]
    }
}

/// The positions that a mask has, rising.
pub fn ones(mask: u32) -> impl Iterator<Item = usize> {
    let left = std::iter::successors(Some(mask), |left| Some(left & left.wrapping_sub(1)));
    left.take_while(|&left| left != 0).map(|left| left.trailing_zeros() as usize)
}
