//! Blocks that need no cell, by the rule of the day on which a backup was made.

use crate::rows::{is_blank, is_null, Blocks};

/// A backup was made before blank blocks were known, or with them. Stores in the field have backups of both.
#[derive(Clone, Copy, Debug, PartialEq, Eq)]
pub enum Era {
    BeforeBlanks,
    WithBlanks,
}

/// The blocks of a segment that go into cells, and those that are blank. The others are null.
#[derive(Clone, Copy, Debug, PartialEq, Eq)]
pub struct Masks {
    pub held: u32,
    pub blank: u32,
}

impl Era {
    /// Whether a block is blank to such a backup.
    pub fn is_blank(self, block: &[u8]) -> bool {
        self == Era::WithBlanks && is_blank(block)
    }

    /// What the blocks of a segment are to such a backup.
    pub fn masks(self, segment: Blocks) -> Masks {
        let mut masks = Masks { held: 0, blank: 0 };
        for (i, block) in segment.iter().enumerate() {
            let blank = self.is_blank(block);
            masks.blank |= (blank as u32) << i;
            masks.held |= ((!blank && !is_null(block)) as u32) << i;
        }
        masks
    }
}
