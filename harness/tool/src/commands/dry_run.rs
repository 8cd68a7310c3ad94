//! Calls that are only tried: made on the store that was read, and never written.

use super::tally;
use crate::disk::Disk;
use crate::json::Json;
use crate::store::Store;
use crate::Failure;
use lurdempos::OWNER;
use std::fmt;

/// Cells in use before and after; none for a user who is not the owner, since the tally is the owner's.
pub struct Cells(Option<Numbers>);

struct Numbers {
    before: u32,
    after: u32,
    /// How many the store has.
    of: u32,
    /// The same of all stores on the disk.
    chain: Option<ChainNumbers>,
}

struct ChainNumbers {
    stores: u32,
    before: u32,
    after: u32,
    limit: Option<u32>,
}

/// What a call of a user would answer, and the cells.
pub fn tried<T>(
    disk: &Disk,
    user: u32,
    call: impl FnOnce(&mut Store) -> Result<T, Failure>,
) -> Result<(T, Cells), Failure> {
    let mut store = disk.read()?;
    let before = tally::of(disk.file, &store)?.cells;
    let answer = call(&mut store)?;
    let (after, of) = (tally::of(disk.file, &store)?.cells, store.capacities().cells);
    let chain = store.in_chain().map(|all| ChainNumbers {
        stores: all.stores(),
        before: all.before,
        after: all.cells(),
        limit: all.limit,
    });
    Ok((answer, Cells((user == OWNER).then_some(Numbers { before, after, of, chain }))))
}

impl Cells {
    pub fn fields(&self) -> Json {
        self.0.as_ref().map_or(Json::Null, Numbers::fields)
    }
}

impl fmt::Display for Cells {
    fn fmt(&self, f: &mut fmt::Formatter<'_>) -> fmt::Result {
        let Some(Numbers { before, after, of, chain }) = &self.0 else {
            return write!(f, "the cells in use are told to the owner alone");
        };
        write!(f, "cells {before} before, {after} after, of {of}")?;
        match chain {
            Some(ChainNumbers { stores: stores @ 2.., before, after, .. }) => {
                write!(f, "; the {stores} stores together {before} before, {after} after")
            }
            _ => Ok(()),
        }
    }
}

impl Numbers {
    fn fields(&self) -> Json {
        let mut fields = vec![("before", self.before.into()), ("after", self.after.into()), ("of", self.of.into())];
        fields.extend(self.chain.as_ref().map(|chain| ("chain", chain.fields())));
        Json::Object(fields)
    }
}

impl ChainNumbers {
    fn fields(&self) -> Json {
        Json::object([
            ("stores", self.stores.into()),
            ("before", self.before.into()),
            ("after", self.after.into()),
            ("limit", self.limit.map_or(Json::Null, Json::from)),
        ])
    }
}
