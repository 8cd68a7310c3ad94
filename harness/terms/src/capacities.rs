//! What a store is laid out with.

/// The page's measures, which every table from before the settings has: bytes of a block, blocks of a segment,
/// rebuild percentage.
pub const BASE: [u32; 3] = [64, 8, 20];
/// Bytes that a block can have.
pub const BLOCK_BYTES: [u32; 4] = [64, 128, 256, 512];
/// Blocks that a segment can have.
pub const SEGMENT_BLOCKS: [u32; 3] = [4, 8, 16];
/// Bytes of the longest image that any store takes.
pub const LONGEST_IMAGE: u32 = 65_536;

/// The eight capacities that a store is laid out with.
#[derive(Clone, Copy, Debug, PartialEq, Eq)]
pub struct Capacities {
    /// Tills, 1 to 16.
    pub tills: u32,
    /// Versions that each till can hold, 1 to 64.
    pub versions: u32,
    /// Blocks of an image, 1 to 65,536 / block bytes.
    pub blocks: u32,
    /// Segment records, 1 to 4,096.
    pub records: u32,
    /// Cells, 1 to 32,768.
    pub cells: u32,
    /// Bytes of a block, and of a cell: 64, 128, 256 or 512.
    pub block_bytes: u32,
    /// Blocks of a segment, and positions of a record: 4, 8 or 16.
    pub segment_blocks: u32,
    /// Rebuild percentage, 0 to 100: a record that loses at least this part of its positions is copied together.
    pub rebuild_percent: u32,
}

impl Capacities {
    /// The largest that a store of the page's measures can have.
    pub const LARGEST: Capacities = Capacities::largest(BASE);

    /// Five capacities, with the page's measures.
    pub const fn new(tills: u32, versions: u32, blocks: u32, records: u32, cells: u32) -> Capacities {
        Capacities::from_array([tills, versions, blocks, records, cells, BASE[0], BASE[1], BASE[2]])
    }

    /// The largest with these measures: block bytes, segment blocks, rebuild percentage.
    pub const fn largest(measures: [u32; 3]) -> Capacities {
        Capacities::new(16, 64, LONGEST_IMAGE / measures[0], 4_096, 32_768).measured(measures)
    }

    /// The same five with these measures: block bytes, segment blocks, rebuild percentage.
    pub const fn measured(self, [block_bytes, segment_blocks, rebuild_percent]: [u32; 3]) -> Capacities {
        Capacities { block_bytes, segment_blocks, rebuild_percent, ..self }
    }

    /// In the boundary's order: tills, versions, blocks, records, cells, block bytes, segment blocks, rebuild percentage.
    pub const fn from_array(eight: [u32; 8]) -> Capacities {
        let [tills, versions, blocks, records, cells, block_bytes, segment_blocks, rebuild_percent] = eight;
        Capacities { tills, versions, blocks, records, cells, block_bytes, segment_blocks, rebuild_percent }
    }

    /// In the same order.
    pub const fn to_array(self) -> [u32; 8] {
        let Capacities { tills, versions, blocks, records, cells, .. } = self;
        let [block_bytes, segment_blocks, rebuild_percent] = self.measures();
        [tills, versions, blocks, records, cells, block_bytes, segment_blocks, rebuild_percent]
    }

    /// Block bytes, segment blocks, rebuild percentage.
    pub const fn measures(self) -> [u32; 3] {
        [self.block_bytes, self.segment_blocks, self.rebuild_percent]
    }

    /// Whether each is in its range.
    pub fn in_range(self) -> bool {
        let upto = |one: u32, most: u32| (1..=most).contains(&one);
        BLOCK_BYTES.contains(&self.block_bytes)
            && SEGMENT_BLOCKS.contains(&self.segment_blocks)
            && self.rebuild_percent <= 100
            && upto(self.tills, 16)
            && upto(self.versions, 64)
            && upto(self.blocks, LONGEST_IMAGE / self.block_bytes)
            && upto(self.records, 4_096)
            && upto(self.cells, 32_768)
    }

    /// The table's header. The page's measures stand there as zeros, so that a table from before is one of now.
    pub fn header(self) -> [u32; 8] {
        let mut words = self.to_array();
        if self.measures() == BASE {
            words[5..].fill(0);
        }
        words
    }

    /// The capacities in range whose header the table has, if there are any.
    pub fn of_table(table: &[u32]) -> Option<Capacities> {
        let header = *table.first_chunk()?;
        let written = Capacities::from_array(header);
        let capacities = if written.measures() == [0; 3] { written.measured(BASE) } else { written };
        (capacities.in_range() && capacities.header() == header).then_some(capacities)
    }

    /// Bytes of the pool.
    pub fn pool_bytes(self) -> usize {
        self.block_bytes as usize * self.cells as usize
    }

    /// Bytes of the longest image.
    pub fn image_bytes(self) -> usize {
        self.block_bytes as usize * self.blocks as usize
    }

    /// Bytes of a segment.
    pub fn segment_bytes(self) -> usize {
        self.block_bytes as usize * self.segment_blocks as usize
    }

    /// Segments of the longest image.
    pub fn segments(self) -> usize {
        self.blocks.div_ceil(self.segment_blocks) as usize
    }

    /// Words of a segment record.
    pub fn record_words(self) -> usize {
        3 + 2 * self.segment_blocks as usize
    }

    /// Words of the table.
    pub fn table_words(self) -> usize {
        let [tills, versions, blocks, records] =
            [self.tills, self.versions, self.blocks, self.records].map(|one| one as usize);
        8 + tills * (4 + versions * (3 + blocks)) + records * self.record_words()
    }
}

#[cfg(test)]
mod tests {
    use super::{Capacities, BASE};

    #[test]
    fn headers_lead_back() {
        let page = Capacities::new(1, 4, 16, 8, 32);
        assert_eq!(page.header(), [1, 4, 16, 8, 32, 0, 0, 0]);
        for capacities in [page, page.measured([64, 8, 21]), page.measured([512, 16, 0]), Capacities::LARGEST] {
            assert_eq!(Capacities::of_table(&capacities.header()), Some(capacities));
        }
    }

    #[test]
    fn other_headers_are_none() {
        assert_eq!(Capacities::of_table(&[1; 7]), None);
        for measures in [BASE, [0, 8, 20], [64, 0, 20], [0, 0, 1], [96, 8, 20], [128, 5, 20], [64, 8, 101]] {
            let header = Capacities::new(1, 4, 16, 8, 32).measured(measures).to_array();
            assert_eq!(Capacities::of_table(&header), None, "{measures:?}");
        }
    }

    #[test]
    fn ranges() {
        for measures in [[64, 4, 0], [128, 8, 100], [256, 16, 50], [512, 16, 20]] {
            let largest = Capacities::largest(measures);
            assert!(largest.in_range() && largest.image_bytes() == 65_536, "{measures:?}");
            assert!(!Capacities { blocks: largest.blocks + 1, ..largest }.in_range(), "{measures:?}");
            assert!(!Capacities { rebuild_percent: 101, ..largest }.in_range(), "{measures:?}");
        }
    }
}
