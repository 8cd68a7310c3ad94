//! What can still be traced in a damaged store's file. Best effort, and not covered by the proof: the proved store
//! refuses such a file as a whole. The one thing that makes an image certain is that every byte on the way to it, words
//! of the table and cells, lies in a piece whose checksum holds.

use crate::form::{number, Parts};
use crate::table::{Layout, Pointer, Position, HEADER_WORDS, MASK_WORDS, SLOT_WORDS};
use crate::{outline, ranges};
use lurdempos::{Capacities, LAST_NUMBER};
use std::ops::Range;

/// An image that was traced.
pub struct Found {
    pub till: u32,
    /// Its place among the till's versions, from 0.
    pub slot: usize,
    /// None if the word has no version's number.
    pub number: Option<u32>,
    /// None if the word cannot be relied on.
    pub day: Option<u32>,
    pub image: Vec<u8>,
    /// Whether the words that tell its number and length can be relied on.
    pub named: bool,
    /// Bytes of the image that may be others.
    pub doubtful: Vec<Range<usize>>,
    /// Bytes of the image that could not be traced, and are zeros.
    pub missing: Vec<Range<usize>>,
    pub verdict: Verdict,
}

#[derive(Clone, Copy, Debug, PartialEq, Eq)]
pub enum Verdict {
    /// Every byte on the way to it lies in a piece whose checksum holds.
    Certain,
    /// All of it was traced, but there are no checksums.
    Unchecked,
    /// All of it was traced, by way of a piece whose checksum does not hold.
    Doubtful,
    /// Not all of it could be traced.
    Incomplete,
}

impl Verdict {
    pub fn word(self) -> &'static str {
        match self {
            Verdict::Certain => "certain",
            Verdict::Unchecked => "unchecked",
            Verdict::Doubtful => "doubtful",
            Verdict::Incomplete => "incomplete",
        }
    }
}

/// A file that is looked through.
pub struct Wreck<'a> {
    bytes: &'a [u8],
    parts: Parts,
    layout: Layout,
    /// The pieces whose checksum does not hold; none are known if there are no checksums.
    pub damaged: Option<Vec<Range<usize>>>,
    /// For every four bytes whether they can be relied on, as far as one can tell.
    good: Vec<bool>,
}

/// Where a block leads, and whether all words and bytes on the way can be relied on.
#[derive(Clone, Copy)]
struct Traced {
    end: End,
    good: bool,
}

#[derive(Clone, Copy, PartialEq, Eq)]
enum End {
    Null,
    Blank,
    Cell(usize),
    Lost,
}

impl<'a> Wreck<'a> {
    /// The file, if one can tell what capacities its store has.
    pub fn of(bytes: &'a [u8]) -> Option<Wreck<'a>> {
        let (parts, capacities) = outline::found(bytes)?;
        let whole = bytes.len() >= parts.length();
        let damaged = (parts.has_sums() && whole).then(|| parts.damaged(bytes));
        let mut good = vec![true; bytes.len().div_ceil(GRAIN)];
        for piece in damaged.iter().flatten() {
            good[grains(piece)].fill(false);
        }
        Some(Wreck { bytes, parts, layout: Layout { capacities }, damaged, good })
    }

    /// Every version of which something can be traced.
    pub fn versions(&self) -> Vec<Found> {
        let tills = self.layout.capacities.tills as usize;
        (0..tills).flat_map(|till| self.versions_of(till)).collect()
    }

    /// Those of a till. The newest is traced first, since chains lead to newer ones.
    fn versions_of(&self, till: usize) -> Vec<Found> {
        let mut found: Vec<Found> = Vec::new();
        let mut newer: Vec<Traced> = Vec::new();
        for slot in (0..self.slots_in_use(till)).rev() {
            let length = self.length_of(till, slot);
            let traced: Vec<Traced> =
                (0..length.div_ceil(self.block_bytes())).map(|block| self.traced(till, slot, block, &newer)).collect();
            if length > 0 {
                found.push(self.found(till, slot, length, &traced));
            }
            newer = traced;
        }
        found.reverse();
        found
    }

    /// The tills that may have had versions of which nothing is left: the words that tell how many there are, or that
    /// one is there, cannot be relied on, or lead to nothing.
    pub fn tills_in_doubt(&self) -> Vec<u32> {
        let Capacities { tills, versions, .. } = self.layout.capacities;
        let in_doubt = |till: &usize| {
            let own = self.layout.till(*till);
            let mut words = (0..versions as usize).map(|slot| self.layout.slot(*till, slot)).chain([own, own + 1]);
            let untraced = || (0..self.slots_in_use(*till)).any(|slot| self.length_of(*till, slot) == 0);
            !words.all(|at| self.word_is_good(at)) || untraced()
        };
        (0..tills as usize).filter(in_doubt).map(|till| till as u32).collect()
    }

    /// As many as the till says; or as many as are not empty, if those are more.
    fn slots_in_use(&self, till: usize) -> usize {
        let most = self.layout.capacities.versions as usize;
        let said = self.word(self.layout.till(till) + 1).map_or(0, |held| held as usize);
        let begun = |slot: &usize| self.word(self.layout.slot(till, *slot)).is_some_and(|number| number != 0);
        let filled = (0..most).take_while(begun).count();
        filled.max(if said <= most { said } else { 0 })
    }

    /// A version's bytes as its slot says; or by its last pointer, if that cannot be.
    fn length_of(&self, till: usize, slot: usize) -> usize {
        let (at, capacities) = (self.layout.slot(till, slot), self.layout.capacities);
        let said = self.word(at + 1).map_or(0, |bytes| bytes as usize);
        if (1..=capacities.image_bytes()).contains(&said) {
            return said;
        }
        let points = |block: &usize| self.word(at + SLOT_WORDS + block).is_some_and(|word| word != 0);
        (0..capacities.blocks as usize).rfind(points).map_or(0, |block| self.block_bytes() * (block + 1))
    }

    fn traced(&self, till: usize, slot: usize, block: usize, newer: &[Traced]) -> Traced {
        let at = self.layout.slot(till, slot) + SLOT_WORDS + block;
        let pointer = self.word(at).map_or(Pointer::Unknown, Pointer::of);
        let next = match pointer {
            Pointer::Null => Traced { end: End::Null, good: true },
            Pointer::Blank => Traced { end: End::Blank, good: true },
            Pointer::Direct { record, position } => self.position(record, position),
            // A null block is never named by an indirect pointer.
            Pointer::Indirect { block } => newer.get(block).map_or(LOST, |next| match next.end {
                End::Null => Traced { good: false, ..*next },
                _ => *next,
            }),
            Pointer::Unknown => LOST,
        };
        Traced { good: next.good && self.word_is_good(at), ..next }
    }

    /// Where a direct pointer leads.
    fn position(&self, record: usize, position: usize) -> Traced {
        let Capacities { records, cells, segment_blocks, .. } = self.layout.capacities;
        if record >= records as usize || position >= segment_blocks as usize {
            return LOST;
        }
        let at = self.layout.record(record);
        let words = [at, at + 1, at + 2, at + MASK_WORDS + position];
        let [Some(held), Some(removed), Some(blank), Some(cell)] = words.map(|at| self.word(at)) else {
            return LOST;
        };
        match Position::of([held, removed, blank], position, cell) {
            Position::Held { cell } if cell < cells as usize => {
                let good = words.into_iter().all(|at| self.word_is_good(at)) && self.is_good(&self.cell_at(cell));
                Traced { end: End::Cell(cell), good }
            }
            _ => LOST,
        }
    }

    fn found(&self, till: usize, slot: usize, length: usize, traced: &[Traced]) -> Found {
        let block_bytes = self.block_bytes();
        let mut image = Vec::with_capacity(length.next_multiple_of(block_bytes));
        let (mut doubtful, mut missing) = (Vec::new(), Vec::new());
        for (block, traced) in traced.iter().enumerate() {
            let from = block_bytes * block;
            let place = from..length.min(from + block_bytes);
            let bytes = match traced.end {
                End::Null => Some(&[][..]),
                End::Blank => Some(&BLANK[..block_bytes]),
                End::Cell(cell) => self.bytes.get(self.cell_at(cell)),
                End::Lost => None,
            };
            match bytes {
                Some(_) if traced.good => {}
                Some(_) => ranges::add(&mut doubtful, place),
                None => ranges::add(&mut missing, place),
            }
            image.extend_from_slice(bytes.unwrap_or_default());
            image.resize(from + block_bytes, 0);
        }
        image.truncate(length);
        let at = self.layout.slot(till, slot);
        let number = self.word(at).filter(|number| (1..=LAST_NUMBER).contains(number));
        let named = number.is_some() && self.names_hold(till, slot, length);
        let day = self.layout.day(till, slot);
        let day = self.word(day).filter(|_| self.word_is_good(day));
        let verdict = match self.damaged {
            _ if !missing.is_empty() => Verdict::Incomplete,
            _ if !named || !doubtful.is_empty() => Verdict::Doubtful,
            None => Verdict::Unchecked,
            Some(_) => Verdict::Certain,
        };
        Found { till: till as u32, slot, number, day, image, named, doubtful, missing, verdict }
    }

    /// Whether the capacities, the till's own words and the slot's number and length can be relied on.
    fn names_hold(&self, till: usize, slot: usize, length: usize) -> bool {
        let (till, slot) = (self.layout.till(till), self.layout.slot(till, slot));
        let words = [till, till + 1, slot, slot + 1];
        self.capacities_hold()
            && words.into_iter().all(|at| self.word_is_good(at))
            && self.word(slot + 1) == Some(length as u32)
    }

    /// Whether the header can be relied on, and is what was found. That it fits the lengths is not enough: another one
    /// can fit them too.
    fn capacities_hold(&self) -> bool {
        let read = outline::header(self.bytes, self.parts) == Some(self.layout.capacities);
        read && (0..HEADER_WORDS).all(|at| self.word_is_good(at))
    }

    fn word_at(&self, at: usize) -> Range<usize> {
        let from = self.parts.table_at() + 4 * at;
        from..from + 4
    }

    /// A word of the table, if the file is long enough.
    fn word(&self, at: usize) -> Option<u32> {
        self.bytes.get(self.word_at(at)).and_then(number)
    }

    fn word_is_good(&self, at: usize) -> bool {
        self.is_good(&self.word_at(at))
    }

    fn cell_at(&self, cell: usize) -> Range<usize> {
        self.parts.cell(cell, self.block_bytes())
    }

    fn block_bytes(&self) -> usize {
        self.layout.capacities.block_bytes as usize
    }

    fn is_good(&self, range: &Range<usize>) -> bool {
        self.good.get(grains(range)).is_some_and(|good| good.iter().all(|good| *good))
    }
}

/// A blank block, as large as one can be.
const BLANK: [u8; 512] = [255; 512];

const LOST: Traced = Traced { end: End::Lost, good: false };

/// All pieces begin and end at multiples of this many bytes.
const GRAIN: usize = 4;

fn grains(range: &Range<usize>) -> Range<usize> {
    range.start / GRAIN..range.end.div_ceil(GRAIN)
}
