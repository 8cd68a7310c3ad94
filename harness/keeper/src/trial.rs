//! One store under test, with its buffers. Its images are letters: a letter is a block filled with it, a dot a null
//! block and a hash a blank one.

use terms::{Backup, Calls, Capacities, OWNER};

#[derive(Clone)]
pub struct Trial<'a> {
    store: &'a dyn Calls,
    capacities: Capacities,
    pub pool: Vec<u8>,
    pub table: Vec<u32>,
}

/// An image of blocks of so many bytes, each filled with a letter.
pub fn letters(text: &str, bytes: u32) -> Vec<u8> {
    let byte = |letter| match letter {
        b'.' => 0,
        b'#' => 255,
        letter => letter,
    };
    text.bytes().flat_map(|letter| vec![byte(letter); bytes as usize]).collect()
}

/// The letter of a block.
fn letter(block: &[u8]) -> char {
    match block[0] {
        0 => '.',
        255 => '#',
        letter => letter as char,
    }
}

impl<'a> Trial<'a> {
    /// A store laid out in buffers that were not all zero.
    pub fn new(store: &'a dyn Calls, capacities: Capacities) -> Trial<'a> {
        let [_, words] = store.table_length(capacities);
        let (mut pool, mut table) = (vec![9; capacities.pool_bytes()], vec![9; words as usize]);
        assert_eq!(store.lay_out(&mut pool, &mut table, capacities), [0], "{:?}", capacities.to_array());
        Trial { store, capacities, pool, table }
    }

    /// The page's store, with so many cells.
    pub fn of_page(store: &'a dyn Calls, cells: u32) -> Trial<'a> {
        Trial::new(store, Capacities::new(1, 4, 16, 8, cells))
    }

    pub fn backup(&mut self, image: &[u8]) -> [u32; 2] {
        self.backup_of(0, image)
    }

    pub fn backup_of(&mut self, till: u32, image: &[u8]) -> [u32; 2] {
        self.store.backup(&mut self.pool, &mut self.table, OWNER, till, image)
    }

    /// Backs letters up with a day.
    pub fn file_on(&mut self, day: u32, text: &str) -> [u32; 2] {
        let image = letters(text, self.capacities.block_bytes);
        self.store.backup_dated(&mut self.pool, &mut self.table, OWNER, 0, day, &image)
    }

    pub fn version_on(&self, day: u32) -> [u32; 2] {
        self.store.version_on(&self.pool, &self.table, OWNER, 0, day)
    }

    /// The word of each slot of till 0, also of those not in use, that has the day.
    pub fn days(&self) -> Vec<u32> {
        let slot = 3 + self.capacities.blocks as usize;
        self.table[12..][..slot * self.capacities.versions as usize].chunks(slot).map(|words| words[2]).collect()
    }

    /// Backs letters up as an earlier rule did.
    pub fn file_by(&mut self, earlier: Backup, till: u32, text: &str) -> [u32; 2] {
        earlier(&mut self.pool, &mut self.table, till, &letters(text, self.capacities.block_bytes))
    }

    /// Backs letters up.
    pub fn file(&mut self, text: &str) -> [u32; 2] {
        self.backup(&letters(text, self.capacities.block_bytes))
    }

    pub fn restore(&self, version: u32, output: &mut [u8]) -> [u32; 3] {
        self.store.restore(&self.pool, &self.table, OWNER, 0, version, output)
    }

    /// A version's image, in letters, and the longest chain.
    pub fn shown(&self, version: u32) -> (String, u32) {
        let bytes = self.capacities.block_bytes as usize;
        let mut output = vec![0; self.capacities.image_bytes()];
        let [refusal, length, hops] = self.restore(version, &mut output);
        assert_eq!(refusal, 0, "restore of {version}");
        let text: String = output[..length as usize].chunks(bytes).map(letter).collect();
        assert_eq!(letters(&text, bytes as u32), output[..length as usize], "version {version}");
        (text, hops)
    }

    pub fn retire(&mut self, version: u32) -> [u32; 2] {
        self.store.retire(&mut self.pool, &mut self.table, OWNER, 0, version)
    }

    pub fn listing(&self) -> [u32; 4] {
        self.store.listing(&self.pool, &self.table, OWNER, 0)
    }

    pub fn tally(&self) -> [u32; 4] {
        self.store.tally(&self.pool, &self.table, OWNER)
    }

    /// What each cell holds: its letter, or a dot.
    pub fn picture(&self) -> String {
        let cells = self.pool.chunks(self.capacities.block_bytes as usize);
        cells.map(letter).collect::<String>().trim_end_matches('.').to_string()
    }

    /// The pointer words of a slot's first blocks, as many as wanted.
    pub fn pointers(&self, slot: usize, blocks: usize) -> &[u32] {
        let at = 12 + slot * (3 + self.capacities.blocks as usize) + 3;
        &self.table[at..at + blocks]
    }

    /// Where the records begin.
    pub fn records_at(&self) -> usize {
        self.table.len() - self.capacities.record_words() * self.capacities.records as usize
    }

    /// A record's mask of blank positions.
    pub fn blanks(&self, number: usize) -> u32 {
        self.table[self.records_at() + self.capacities.record_words() * number + 2]
    }

    /// A record: held mask, removed mask, cells, counts.
    pub fn record(&self, number: usize) -> (u32, u32, &[u32], &[u32]) {
        let (size, positions) = (self.capacities.record_words(), self.capacities.segment_blocks as usize);
        let words = &self.table[self.records_at() + size * number..][..size];
        (words[0], words[1], &words[3..3 + positions], &words[3 + positions..])
    }
}
