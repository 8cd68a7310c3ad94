//! Who uses each cell of a sound store.

use crate::table::Version;

/// The versions that need a cell, by chains too.
#[derive(Clone, Copy, Debug, PartialEq, Eq)]
pub enum Use {
    Free,
    /// One version of a till alone.
    Single(usize),
    /// Several versions of one till.
    Versions(usize),
    /// Versions of several tills.
    Tills,
}

/// The use of each cell.
pub fn uses(cells: usize, tills: &[Vec<Version>]) -> Vec<Use> {
    let mut uses = vec![Use::Free; cells];
    for (till, versions) in tills.iter().enumerate() {
        for version in versions {
            // A version that has a block several times needs its cell once.
            let mut needed: Vec<usize> = version.traced.iter().filter_map(|block| block.cell).collect();
            needed.sort_unstable();
            needed.dedup();
            for cell in needed {
                if let Some(found) = uses.get_mut(cell) {
                    *found = found.with(till);
                }
            }
        }
    }
    uses
}

impl Use {
    /// The use with one more version, of this till.
    fn with(self, till: usize) -> Use {
        match self {
            Use::Free => Use::Single(till),
            Use::Single(other) | Use::Versions(other) if other == till => Use::Versions(till),
            _ => Use::Tills,
        }
    }
}

/// How many of these are so.
pub fn count<T: PartialEq>(all: &[T], one: T) -> usize {
    all.iter().filter(|other| **other == one).count()
}
