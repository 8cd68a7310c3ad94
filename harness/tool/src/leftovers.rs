//! What a run has made and would leave behind if it were ended in the middle: drafts and temporary folders. They are
//! listed here, so that whoever ends the run, a signal or a lack of memory, can remove them first.

use crate::files::same;
use std::fs::{self, File, Metadata};
use std::io;
use std::path::{Path, PathBuf};
use std::sync::{Mutex, MutexGuard, PoisonError};

#[derive(Debug)]
enum Leftover {
    /// A draft; only as long as its name means this very file.
    Draft(PathBuf, Metadata),
    Folder(PathBuf),
}

static LEFTOVERS: Mutex<Vec<Leftover>> = Mutex::new(Vec::new());

/// How often a folder in which the run is still making files is tried for.
const ATTEMPTS: u32 = 100;

fn list() -> MutexGuard<'static, Vec<Leftover>> {
    LEFTOVERS.lock().unwrap_or_else(PoisonError::into_inner)
}

/// Makes a draft and lists it. Nobody can end the run in between.
pub fn make_draft(path: &Path, make: impl FnOnce() -> io::Result<File>) -> io::Result<File> {
    let mut list = list();
    // Memory first: if there is none the draft must not be there yet.
    list.reserve(1);
    let path = path.to_owned();
    let file = make()?;
    list.push(Leftover::Draft(path, file.metadata()?));
    Ok(file)
}

/// Makes a folder and lists it.
pub fn make_folder(path: &Path, make: impl FnOnce() -> io::Result<()>) -> io::Result<()> {
    let mut list = list();
    list.reserve(1);
    let folder = path.to_owned();
    make()?;
    list.push(Leftover::Folder(folder));
    Ok(())
}

/// Does what makes a leftover something else, a rename or a removal; if that succeeds it is listed no longer.
pub fn settle(path: &Path, step: impl FnOnce() -> io::Result<()>) -> io::Result<()> {
    let mut list = list();
    step()?;
    list.retain(|leftover| leftover.path() != path);
    Ok(())
}

/// Removes everything that is listed, for good: the run cannot make or rename anything any more.
pub fn remove_all() {
    let list = list();
    list.iter().for_each(Leftover::remove);
    std::mem::forget(list);
}

/// The same where this thread may be in the middle of making something; then that is left.
pub fn remove_what_one_can() {
    if let Ok(list) = LEFTOVERS.try_lock() {
        list.iter().for_each(Leftover::remove);
        std::mem::forget(list);
    }
}

impl Leftover {
    fn path(&self) -> &Path {
        match self {
            Leftover::Draft(path, _) | Leftover::Folder(path) => path,
        }
    }

    fn remove(&self) {
        match self {
            Leftover::Draft(path, made) => {
                if fs::symlink_metadata(path).is_ok_and(|found| same(&found, made)) {
                    let _ = fs::remove_file(path);
                }
            }
            Leftover::Folder(path) => {
                (0..ATTEMPTS).any(|_| fs::remove_dir_all(path).is_ok() || !path.exists());
            }
        }
    }
}
