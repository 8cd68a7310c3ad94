//! Any sound stores, most of them such as no list of calls leads to: records of equal content, cells in any order,
//! direct pointers where indirect ones would do, cells of 255s beside blank positions, numbers that begin anywhere and
//! have gaps, days that fall, any rights.

use crate::Random;
use terms::{Capacities, LAST_NUMBER};

#[derive(Clone, Copy, PartialEq)]
enum Position {
    Null,
    Held { cell: usize, count: u32 },
    Removed,
    Blank,
}

#[derive(Clone, Copy, PartialEq)]
enum Pointer {
    Null,
    Direct(usize, usize),
    Indirect(usize),
    Blank,
}

struct Version {
    number: u32,
    length: usize,
    day: u32,
    pointers: Vec<Pointer>,
    /// Whether each block, as traced, is blank without a cell.
    blank: Vec<bool>,
}

/// A till's versions stand newest first while they are made.
struct Till {
    last: u32,
    /// Four bits for each user but the owner.
    rights: u32,
    versions: Vec<Version>,
}

struct Sketch {
    capacities: Capacities,
    records: Vec<Vec<Position>>,
    tills: Vec<Till>,
    pool: Vec<u8>,
}

/// A small sound store of any measures: its pool and its table.
pub fn sound_store(random: &mut Random) -> (Vec<u8>, Vec<u32>) {
    let measures = random.measures();
    let mut upto = |most| random.between(1, most) as u32;
    let capacities = Capacities::new(upto(3), upto(4), upto(20), upto(7), upto(56)).measured(measures);
    let mut sketch = Sketch { capacities, records: vec![], tills: vec![], pool: vec![0; capacities.pool_bytes()] };
    sketch.draw_records(random);
    sketch.tills = (0..capacities.tills).map(|_| sketch.draw_till(random)).collect();
    sketch.count();
    sketch.strike_unused(random);
    sketch.fill_cells(random);
    let words = sketch.words();
    (sketch.pool, words)
}

impl Sketch {
    /// Bytes of a block.
    fn bytes(&self) -> usize {
        self.capacities.block_bytes as usize
    }

    /// Records with positions of each kind, held ones in cells of any order, all counts 0.
    fn draw_records(&mut self, random: &mut Random) {
        let mut cells: Vec<usize> = (0..self.capacities.cells as usize).collect();
        (1..cells.len()).rev().for_each(|n| cells.swap(n, random.below(n + 1)));
        for _ in 0..self.capacities.records {
            let (nulls, removed, blanks) = (random.below(80), random.below(30), random.below(60));
            let mut draw = |_| match cells.pop() {
                Some(cell) if !random.percent(nulls) && !random.percent(removed) => Position::Held { cell, count: 0 },
                _ if random.percent(removed) => Position::Removed,
                _ if random.percent(blanks) => Position::Blank,
                _ => Position::Null,
            };
            self.records.push((0..self.capacities.segment_blocks).map(&mut draw).collect());
        }
    }

    fn draw_till(&self, random: &mut Random) -> Till {
        let last = *random.pick(&[0, 1, 2, 3, 4, 9, 1_000, LAST_NUMBER - 1, LAST_NUMBER]);
        let held = random.below(1 + self.capacities.versions.min(last) as usize);
        let mut days = draw_days(random, held);
        let mut versions: Vec<Version> = Vec::new();
        let mut above = last as usize + 1;
        for older in (0..held).rev() {
            // Each older one needs a number too.
            let number = if random.percent(50) { above - 1 } else { random.between(older + 1, above - 1) };
            let version = self.draw_version(random, number as u32, versions.last());
            versions.push(Version { day: days.pop().unwrap_or(0), ..version });
            above = number;
        }
        Till { last, rights: draw_rights(random), versions }
    }

    fn draw_version(&self, random: &mut Random, number: u32, newer: Option<&Version>) -> Version {
        let length = random.between(1, self.capacities.image_bytes());
        let length = if random.percent(50) { length.next_multiple_of(self.bytes()) } else { length };
        let (directs, indirects, blanks) = (random.below(101), random.below(101), random.below(60));
        let pointers = newer.map_or(&[][..], |newer| &newer.pointers);
        let named: Vec<usize> = (0..pointers.len()).filter(|&n| pointers[n] != Pointer::Null).collect();
        let held = |k: usize, i: usize| matches!(self.records[k][i], Position::Held { .. });
        let mut draw = || {
            let (k, i) = (random.below(self.records.len()), random.below(self.records[0].len()));
            if !named.is_empty() && random.percent(indirects) {
                Pointer::Indirect(*random.pick(&named))
            } else if held(k, i) && random.percent(directs) {
                Pointer::Direct(k, i)
            } else if random.percent(blanks) {
                Pointer::Blank
            } else {
                Pointer::Null
            }
        };
        let mut pointers: Vec<Pointer> = (0..length.div_ceil(self.bytes())).map(|_| draw()).collect();
        let mut blank: Vec<bool> = pointers.iter().map(|pointer| is_blank(*pointer, newer)).collect();
        if let (Some(pointer), Some(blank @ true)) = (pointers.last_mut(), blank.last_mut()) {
            // A block that is not whole is zero at its end.
            if !length.is_multiple_of(self.bytes()) {
                (*pointer, *blank) = (Pointer::Null, false);
            }
        }
        Version { number, length, day: 0, pointers, blank }
    }

    /// Counts every direct pointer.
    fn count(&mut self) {
        for pointer in self.tills.iter().flat_map(|till| &till.versions).flat_map(|version| &version.pointers) {
            if let Pointer::Direct(k, i) = *pointer {
                if let Position::Held { count, .. } = &mut self.records[k][i] {
                    *count += 1;
                }
            }
        }
    }

    /// Held positions that no pointer names become removed, null or blank; a record that then holds none is free.
    fn strike_unused(&mut self, random: &mut Random) {
        let whole = random.percent(50);
        for record in &mut self.records {
            for position in record.iter_mut() {
                if matches!(position, Position::Held { count: 0, .. } | Position::Removed) {
                    let others = [Position::Null, Position::Null, Position::Blank, Position::Removed];
                    *position = *random.pick(&others[..if whole { 3 } else { 4 }]);
                }
            }
            if !record.iter().any(|position| matches!(position, Position::Held { .. })) {
                record.fill(Position::Null);
            }
        }
    }

    /// Few different blocks, so that cells and records come out equal; zero after the ends of versions.
    fn fill_cells(&mut self, random: &mut Random) {
        let (letters, alike, cells_of_255) = (random.between(1, 4), random.percent(50), random.percent(50));
        let (bytes, positions) = (self.bytes(), self.capacities.segment_blocks as usize);
        for (n, position) in self.records.iter().flatten().enumerate() {
            if let Position::Held { cell, .. } = *position {
                let letter = if alike { n % positions % letters } else { random.below(letters) };
                let byte = if letter == 0 && cells_of_255 { 255 } else { b'a' + letter as u8 };
                self.pool[bytes * cell..bytes * (cell + 1)].fill(byte);
            }
        }
        for till in &self.tills {
            for (n, version) in till.versions.iter().enumerate() {
                let traced = self.trace(till, n, version.pointers.len() - 1);
                if let (Some(cell), tail @ 1..) = (traced, version.length % bytes) {
                    self.pool[bytes * cell + tail..bytes * (cell + 1)].fill(0);
                }
            }
        }
    }

    fn trace(&self, till: &Till, version: usize, block: usize) -> Option<usize> {
        match till.versions[version].pointers[block] {
            Pointer::Null | Pointer::Blank => None,
            Pointer::Indirect(newer) => self.trace(till, version - 1, newer),
            Pointer::Direct(k, i) => match self.records[k][i] {
                Position::Held { cell, .. } => Some(cell),
                _ => None,
            },
        }
    }

    /// The table's words.
    fn words(&self) -> Vec<u32> {
        let [_, versions, blocks, ..] = self.capacities.to_array().map(|one| one as usize);
        let mut words = self.capacities.header().to_vec();
        for till in &self.tills {
            let held = till.versions.len();
            words.extend([till.last, held as u32, till.rights, 0]);
            for version in till.versions.iter().rev() {
                words.extend([version.number, version.length as u32, version.day]);
                words.extend(version.pointers.iter().map(pointer_word));
                words.extend(vec![0; blocks - version.pointers.len()]);
            }
            words.extend(vec![0; (versions - held) * (3 + blocks)]);
        }
        self.records.iter().for_each(|record| words.extend(record_words(record)));
        words
    }
}

/// A till's rights: none, as before there were users; all; or any.
fn draw_rights(random: &mut Random) -> u32 {
    let any = random.number() as u32;
    *random.pick(&[0, u32::MAX, any, any]) & 0x0fff_ffff
}

/// A till's days, the oldest version's first: all 0, as before there were days; rising, as calls leave them; or any.
fn draw_days(random: &mut Random, held: usize) -> Vec<u32> {
    let way = random.below(3);
    let mut days: Vec<u32> =
        (0..held).map(|_| *random.pick(&[0, 1, 2, 3, 9, 20_000, u32::MAX - 1, u32::MAX])).collect();
    match way {
        0 => days.fill(0),
        1 => days.sort(),
        _ => {}
    }
    days
}

/// Whether a pointer is blank, or leads to a blank one by way of the next newer version.
fn is_blank(pointer: Pointer, newer: Option<&Version>) -> bool {
    match pointer {
        Pointer::Blank => true,
        Pointer::Indirect(block) => newer.is_some_and(|newer| newer.blank[block]),
        Pointer::Null | Pointer::Direct(..) => false,
    }
}

fn pointer_word(pointer: &Pointer) -> u32 {
    match *pointer {
        Pointer::Null => 0,
        Pointer::Direct(k, i) => (1 << 24) + (16 * k + i) as u32,
        Pointer::Indirect(n) => (2 << 24) + n as u32,
        Pointer::Blank => 3 << 24,
    }
}

fn record_words(record: &[Position]) -> Vec<u32> {
    let positions = record.len();
    let mut words = vec![0; 3 + 2 * positions];
    for (i, position) in record.iter().enumerate() {
        match *position {
            Position::Null => {}
            Position::Removed => words[1] |= 1 << i,
            Position::Blank => words[2] |= 1 << i,
            Position::Held { cell, count } => {
                words[0] |= 1 << i;
                (words[3 + i], words[3 + positions + i]) = (cell as u32, count);
            }
        }
    }
    words
}
