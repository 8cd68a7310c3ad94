//! The draft of a file beside it: the new content until it takes the file's place by a rename, and the lock of the run
//! that writes it.
//!
//! A run that changes a file first creates the draft and locks it (flock), and only then reads the file. Why the draft
//! and not the file: a rename puts another file behind the file's name, so that a lock on the file itself would guard
//! what nobody opens any more; and a store that is being made has no file yet. Why no lock file of its own: a store is
//! one file, and when the run ends the draft is gone. The system drops the lock with the process, so a draft that can
//! be locked is the leftover of a killed run, and it is removed. Whoever gets the lock looks whether the draft's name
//! still means the file that it has locked, since the run before may just have renamed or removed it.

use crate::attributes::Attributes;
use crate::files::{means, same};
use crate::names::{quoted, shown};
use crate::patience::Patience;
use crate::reply::warn;
use crate::steps::{phase, step};
use crate::target::{cannot_make_in, refused_access, Target};
use crate::{leftovers, locks, memory, Failure};
use std::fs::{self, File, Metadata, OpenOptions};
use std::io::{self, ErrorKind, Write};
use std::os::unix::fs::{MetadataExt, OpenOptionsExt, PermissionsExt};
use std::path::Path;

/// The permission of a folder that keeps users from replacing files of others.
const STICKY: u32 = 0o1000;

/// How often a draft that other runs make and remove in the same instant is tried for.
const ATTEMPTS: u32 = 100;
/// How often one that this user may not open is: another user's run may just have made it, and will open it to others.
const CLOSED_ATTEMPTS: u32 = 20;

/// The permissions of a file that only its owner reads and writes, and those of a new file of the user's.
pub const PRIVATE: u32 = 0o600;
pub const USUAL: u32 = 0o666;

pub struct Draft<'a> {
    target: &'a Target,
    file: File,
    settled: bool,
}

/// What a draft may take the place of.
pub enum Over<'a> {
    /// Nothing: the file is new.
    Nothing,
    /// The file that was opened, as it was then, and nothing that somebody has made of it or put there since.
    Opened(&'a File, &'a Metadata),
    /// Whatever is there.
    Anything,
}

/// What came of one try to make a draft.
enum Attempt<'a> {
    Made(Draft<'a>),
    /// Another run came between.
    Crossed,
    /// Another run has a draft, this one.
    Held(File),
    /// There is one that this user may not open.
    Closed(io::Error),
}

impl<'a> Draft<'a> {
    /// Makes and locks the draft, once no other run has one. While it lasts no other run replaces the target. A new file
    /// gets these permissions from the first byte on, less those that the user takes from every new file.
    pub fn begin(target: &'a Target, patience: &Patience, mode: u32) -> Result<Draft<'a>, Failure> {
        phase("wait for other runs");
        let (mut crossed, mut closed) = (0, 0);
        loop {
            match Draft::attempt(target, mode).map_err(|error| cannot_make(target, &error))? {
                Attempt::Made(draft) => return Ok(draft),
                Attempt::Crossed if crossed < ATTEMPTS => crossed += 1,
                Attempt::Crossed | Attempt::Held(_) if patience.pause() => {}
                Attempt::Crossed => return Err(locks::busy(&target.shown, None, patience)),
                Attempt::Held(file) => return Err(locks::busy(&target.shown, Some(&file), patience)),
                Attempt::Closed(_) if closed < CLOSED_ATTEMPTS && patience.pause() => closed += 1,
                Attempt::Closed(error) => return Err(cannot_make(target, &error)),
            }
        }
    }

    fn attempt(target: &'a Target, mode: u32) -> io::Result<Attempt<'a>> {
        step()?;
        // Whoever may not read the old file may not read the new one either, from the first byte on.
        let mode = if target.path.exists() { PRIVATE } else { mode & 0o777 };
        let new = || OpenOptions::new().write(true).create_new(true).mode(mode).open(&target.draft);
        match leftovers::make_draft(&target.draft, new) {
            Ok(file) => {
                let mut draft = Draft { target, file, settled: false };
                if locks::lock(&draft.file)? && means(&target.draft, &draft.file)? {
                    return Ok(Attempt::Made(draft));
                }
                // Another run has taken it for a leftover, and removes it.
                draft.settled = true;
                leftovers::settle(&target.draft, || Ok(())).map(|()| Attempt::Crossed)
            }
            Err(error) if error.kind() == ErrorKind::AlreadyExists => remove_leftover(target),
            Err(error) => Err(error),
        }
    }

    /// Gives the draft what the file has besides its bytes, before there is a byte in it.
    pub fn take_after(&self, old: Attributes) -> Result<(), Failure> {
        old.give_to(&self.file).map_err(|error| {
            let advice = "let its owner or a member of its group do this, or change its group first (`chgrp`).";
            cannot_write(self.target, &error).advising(advice)
        })
    }

    /// Gives the draft of a new file these permissions.
    pub fn permit(&self, mode: u32) -> Result<(), Failure> {
        let set = self.file.set_permissions(PermissionsExt::from_mode(mode & 0o777));
        set.map_err(|error| cannot_write(self.target, &error))
    }

    /// Puts the bytes in the target's place: all of them, and safe from a power cut, or none.
    pub fn replace(mut self, bytes: &[u8], over: Over) -> Result<(), Failure> {
        self.write(bytes).map_err(|error| cannot_write(self.target, &error))?;
        // Opened before the rename, so that nothing is altered yet if this cannot be done.
        let folder = File::open(&self.target.folder).map_err(|error| cannot_write(self.target, &error))?;
        self.rename(over)?;
        phase("sync the folder");
        if let Err(error) = step().and_then(|()| folder.sync_all()) {
            let path = shown(&self.target.shown);
            warn(&format!(
                "{path}: written, but a power cut may still undo it: its folder could not be synced: {error}"
            ));
        }
        // The last step: all is done, so there is nothing left that could fail.
        let _ = step();
        Ok(())
    }

    fn write(&mut self, bytes: &[u8]) -> io::Result<()> {
        let (first, second) = bytes.split_at(bytes.len() / 2);
        phase("write the draft");
        step()?;
        self.file.write_all(first)?;
        step()?;
        self.file.write_all(second)?;
        phase("sync the draft");
        step()?;
        self.file.sync_all()
    }

    fn rename(&mut self, over: Over) -> Result<(), Failure> {
        phase("rename the draft");
        step().map_err(|error| cannot_write(self.target, &error))?;
        seen(self.target, over)?;
        let renamed = leftovers::settle(&self.target.draft, || {
            if !means(&self.target.draft, &self.file)? {
                return Err(io::Error::other("somebody has put another file in the draft's place"));
            }
            fs::rename(&self.target.draft, &self.target.path)
        });
        renamed.map_err(|error| cannot_rename(self.target, &error))?;
        memory::changed();
        self.settled = true;
        Ok(())
    }
}

impl Drop for Draft<'_> {
    /// A draft that has not taken the target's place goes away, while its lock is still held.
    fn drop(&mut self) {
        if self.settled {
            return;
        }
        let _ = leftovers::settle(&self.target.draft, || {
            if means(&self.target.draft, &self.file).unwrap_or(false) {
                let _ = fs::remove_file(&self.target.draft);
            }
            Ok(())
        });
    }
}

/// Fails if something has come to the target's place, or gone from it, that the run has not seen.
fn seen(target: &Target, over: Over) -> Result<(), Failure> {
    let found = fs::symlink_metadata(&target.path).ok();
    let words = match (over, found) {
        (Over::Nothing, Some(_)) => return Err(exists(&target.shown)),
        (Over::Opened(..), None) => "was removed while this run was at it, and was not made again",
        (Over::Opened(file, _), Some(found)) if !file.metadata().is_ok_and(|file| same(&file, &found)) => {
            return Err(replaced(&target.shown));
        }
        (Over::Opened(_, old), Some(found)) if changed(old, &found) => {
            "was changed by another program while this run was at it, and was left so"
        }
        _ => return Ok(()),
    };
    Err(look_again(&target.shown, words))
}

/// Whether a file has been written to since, or has got other rights or another name.
fn changed(old: &Metadata, now: &Metadata) -> bool {
    let state = |file: &Metadata| (file.len(), file.ctime(), file.ctime_nsec());
    state(old) != state(now)
}

/// Somebody has put another file in the place of the one that was opened.
pub fn replaced(path: &Path) -> Failure {
    look_again(path, "was replaced by another file while this run was at it; that one was not altered")
}

fn look_again(path: &Path, words: &str) -> Failure {
    Failure::file(format!("{}: {words}", shown(path))).advising("see what is there now, then run it again.")
}

/// A file is in the way of a new one.
pub fn exists(path: &Path) -> Failure {
    let failure = Failure::file(format!("{}: exists already and was not altered", shown(path)));
    failure.advising("choose another name, or move the old file away first.")
}

/// Removes the draft of a killed run, under its lock.
fn remove_leftover<'a>(target: &Target) -> io::Result<Attempt<'a>> {
    let found = match fs::symlink_metadata(&target.draft) {
        Ok(found) => found,
        Err(error) if error.kind() == ErrorKind::NotFound => return Ok(Attempt::Crossed),
        Err(error) => return Err(error),
    };
    if !found.is_file() {
        let words = format!("{} is in the way and is not a regular file", shown(&target.draft));
        return Err(io::Error::other(words));
    }
    let file = match File::open(&target.draft) {
        Ok(file) => file,
        Err(error) if error.kind() == ErrorKind::NotFound => return Ok(Attempt::Crossed),
        Err(error) if error.kind() == ErrorKind::PermissionDenied => return Ok(Attempt::Closed(error)),
        Err(error) => return Err(error),
    };
    if !locks::lock(&file)? {
        return Ok(Attempt::Held(file));
    }
    if means(&target.draft, &file)? {
        step()?;
        fs::remove_file(&target.draft)?;
    }
    Ok(Attempt::Crossed)
}

/// The draft could not be made. If one is there it is another user's, and in the way.
fn cannot_make(target: &Target, error: &io::Error) -> Failure {
    let failure = cannot_write(target, error);
    if error.kind() != ErrorKind::PermissionDenied {
        return failure;
    }
    let draft = quoted(&target.draft);
    match fs::symlink_metadata(&target.draft) {
        Ok(found) => failure.advising(format!(
            "the draft {draft} of user {} is in the way, and this user may not open or remove it; \
             if none of that user's runs is still at work, let that user or root remove it: `rm {draft}`.",
            found.uid()
        )),
        Err(_) => cannot_make_in(&target.folder, failure),
    }
}

/// The draft could not take the file's place. In a folder with the sticky bit it can only be replaced by some.
fn cannot_rename(target: &Target, error: &io::Error) -> Failure {
    let failure = cannot_write(target, error);
    let sticky = fs::metadata(&target.folder).is_ok_and(|folder| folder.mode() & STICKY != 0);
    if error.kind() != ErrorKind::PermissionDenied || !sticky {
        return failure;
    }
    failure.advising(format!(
        "the folder {} has the sticky bit, so that only the owner of a file can replace it; let its owner do this.",
        quoted(&target.folder)
    ))
}

fn cannot_write(target: &Target, error: &io::Error) -> Failure {
    refused_access(&target.shown, "could not be written, and was not altered", error)
}
