//! The stores that a command line names: FILE, which the command is about, and the others on its disk.

use crate::arguments::Arguments;
use crate::files::same;
use crate::names::shown;
use crate::store::Store;
use crate::storefile::{self, Opened};
use crate::syntax::LIMIT;
use crate::target::Target;
use crate::Failure;
use lurdempos::MOST_STORES;
use std::fs;
use std::path::Path;

pub struct Disk<'a> {
    pub file: &'a Path,
    others: Vec<&'a Path>,
    limit: Option<u32>,
}

/// Where they really lie.
pub struct Targets {
    pub file: Target,
    /// In the order of their paths, in which they are locked.
    pub others: Vec<Target>,
}

impl<'a> Disk<'a> {
    pub fn asked(arguments: &'a Arguments) -> Result<Disk<'a>, Failure> {
        let (file, others, limit) = (arguments.store()?, arguments.others()?, arguments.option_number(LIMIT.name)?);
        refuse_wrong(arguments, &[&[file], &others[..]].concat())?;
        Ok(Disk { file, others, limit })
    }

    /// For a change of the store.
    pub fn targets(&self) -> Result<Targets, Failure> {
        let file = Target::existing(self.file)?;
        let others = self.others.iter().map(|other| Target::existing(other));
        let mut others: Vec<Target> = others.collect::<Result<_, _>>()?;
        others.sort_by(|one, other| one.path.cmp(&other.path));
        Ok(Targets { file, others })
    }

    /// Reads them all. No lock is needed: each file has the store that was there when it was opened.
    pub fn open(&self) -> Result<Opened, Failure> {
        let opened = storefile::open(self.file)?;
        let others: Vec<Store> = self.others.iter().map(|other| storefile::read(other)).collect::<Result<_, _>>()?;
        Ok(Opened { store: self.joined(opened.store, others), ..opened })
    }

    /// The store alone, without what its file tells besides.
    pub fn read(&self) -> Result<Store, Failure> {
        self.open().map(|opened| opened.store)
    }

    /// The store as one of a chain, if the command line asks for one.
    pub fn joined(&self, store: Store, others: Vec<Store>) -> Store {
        match (&others[..], self.limit) {
            ([], None) => store,
            (_, limit) => store.chained(others, limit),
        }
    }
}

/// Wrong use if there are more stores than a disk has, or one of them twice, whatever it is called.
pub fn refuse_wrong(arguments: &Arguments, stores: &[&Path]) -> Result<(), Failure> {
    if stores.len() > MOST_STORES {
        return Err(arguments.wrong(&format!("{} stores are named; a disk has at most {MOST_STORES}", stores.len())));
    }
    let found: Vec<_> = stores.iter().filter_map(|path| Some((path, fs::metadata(path).ok()?))).collect();
    for (n, (path, metadata)) in found.iter().enumerate() {
        if let Some((first, _)) = found[..n].iter().find(|(_, other)| same(other, metadata)) {
            let words = match first == path {
                true => format!("{} is named twice", shown(path)),
                false => format!("{} and {} are one file", shown(first), shown(path)),
            };
            return Err(arguments.wrong(&format!("{words}; name each store once")));
        }
    }
    Ok(())
}
