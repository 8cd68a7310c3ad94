//! A store in its file: read, or read, changed and replaced.

use crate::attributes::Attributes;
use crate::disk::{Disk, Targets};
use crate::draft::{exists, replaced, Draft, Over, PRIVATE, USUAL};
use crate::files::means;
use crate::form::{self, decode, encode, Content, Misfit};
use crate::names::{quoted, shown};
use crate::patience::Patience;
use crate::steps::phase;
use crate::store::Store;
use crate::target::{cannot_read, refused_access, regular, Target};
use crate::{advice, locks, Failure};
use std::fs::{self, File, Metadata, OpenOptions};
use std::io;
use std::os::unix::fs::{FileExt, MetadataExt};
use std::path::Path;

/// A store that has been read, with what its file tells besides.
pub struct Opened {
    pub store: Store,
    pub file: File,
    pub metadata: Metadata,
    pub has_sums: bool,
}

impl Opened {
    /// What its file has besides its bytes.
    pub fn attributes(&self) -> Attributes<'_> {
        Attributes { metadata: &self.metadata, file: Some(&self.file) }
    }
}

/// Reads a store. No lock is needed: a store's file is never written in place, so whoever has opened it reads the old
/// store or the new one.
pub fn open(path: &Path) -> Result<Opened, Failure> {
    let (file, metadata) = open_file(path)?;
    sound_store(path, file, metadata)
}

/// The store alone.
pub fn read(path: &Path) -> Result<Store, Failure> {
    open(path).map(|opened| opened.store)
}

/// A file's bytes as they are, as many as a store can have, for whoever makes do with a damaged one.
pub fn read_bytes(path: &Path) -> Result<(Vec<u8>, Metadata), Failure> {
    let (file, metadata) = open_file(path)?;
    let bytes = first_bytes(path, &file, metadata.len().min(form::largest()))?;
    Ok((bytes, metadata))
}

fn open_file(path: &Path) -> Result<(File, Metadata), Failure> {
    regular(path)?;
    let file = File::open(path).map_err(|error| cannot_read(path, &error))?;
    let metadata = file.metadata().map_err(|error| cannot_read(path, &error))?;
    Ok((file, metadata))
}

/// A store that is being changed, with the draft whose lock keeps other runs away.
pub struct Change<'a> {
    pub store: Store,
    draft: Draft<'a>,
    // Locked too.
    file: File,
    /// As the file was when it was read.
    metadata: Metadata,
    /// The others on its disk, which are to stay as they are until this one is written.
    _others: Vec<File>,
}

impl<'a> Change<'a> {
    /// Locks and reads a store, and the others on its disk. All runs lock in one order, by where the files lie, so that
    /// no two of them wait for each other.
    pub fn begin(disk: &Disk, targets: &'a Targets, patience: &Patience) -> Result<Change<'a>, Failure> {
        let Targets { file: target, others } = targets;
        let (before, behind) = others.split_at(others.partition_point(|other| other.path < target.path));
        let mut held = hold(before, patience)?;
        let draft = Draft::begin(target, patience, PRIVATE)?;
        let (file, metadata) = lock(target, &draft, patience)?;
        if metadata.nlink() > 1 {
            return Err(several_names(&target.shown, metadata.nlink()));
        }
        held.extend(hold(behind, patience)?);
        let Opened { store, file, metadata, .. } = sound_store(&target.shown, file, metadata)?;
        let read = |(other, (file, metadata)): (&Target, _)| sound_store(&other.shown, file, metadata);
        let others: Vec<Opened> = others.iter().zip(held).map(read).collect::<Result<_, _>>()?;
        let (others, _others) = others.into_iter().map(|other| (other.store, other.file)).unzip();
        phase("make the call");
        Ok(Change { store: disk.joined(store, others), draft, file, metadata, _others })
    }

    /// Puts the changed store in the old one's place.
    pub fn finish(self) -> Result<(), Failure> {
        let (pool, table) = self.store.into_parts();
        phase("put the file together");
        let bytes = encode(pool, &table);
        self.draft.replace(&bytes, Over::Opened(&self.file, &self.metadata))
    }
}

/// The store's file, locked.
///
/// The draft's lock is enough among runs of this tool that change it. This one is for others that want the store to stay
/// as it is for a while, and holds until the folder is synced: the file that is renamed is locked too.
fn lock(target: &Target, draft: &Draft, patience: &Patience) -> Result<(File, Metadata), Failure> {
    let failed = |error| refused_access(&target.shown, "cannot be changed", &error);
    let open = || {
        // For writing too, though nothing is written here: so a file that is write-protected is left alone.
        let file = OpenOptions::new().read(true).write(true).open(&target.path).map_err(failed)?;
        draft.take_after(Attributes { metadata: &file.metadata().map_err(failed)?, file: Some(&file) })?;
        Ok(file)
    };
    let (file, metadata) = locked(target, patience, open, locks::lock, failed)?;
    // Somebody may have given it other rights while this run has waited.
    draft.take_after(Attributes { metadata: &metadata, file: Some(&file) })?;
    Ok((file, metadata))
}

/// Other stores, locked. They are only read, and several runs can have them locked so; who wants to change one waits.
fn hold(others: &[Target], patience: &Patience) -> Result<Vec<(File, Metadata)>, Failure> {
    let one = |other: &Target| {
        let failed = |error| cannot_read(&other.shown, &error);
        locked(other, patience, || File::open(&other.path).map_err(failed), locks::share, failed)
    };
    others.iter().map(one).collect()
}

/// A file that is opened and locked so, for as long as its name means it.
fn locked(
    target: &Target,
    patience: &Patience,
    open: impl Fn() -> Result<File, Failure>,
    lock: impl Fn(&File) -> io::Result<bool>,
    failed: impl Fn(io::Error) -> Failure,
) -> Result<(File, Metadata), Failure> {
    loop {
        let file = open()?;
        while !lock(&file).map_err(&failed)? {
            if !patience.pause() {
                return Err(locks::busy(&target.shown, Some(&file), patience));
            }
        }
        let metadata = file.metadata().map_err(&failed)?;
        if means(&target.path, &file).map_err(&failed)? {
            return Ok((file, metadata));
        }
        // Another file has its name now; if that is a link, it is not for this run to say where it will lead.
        if !patience.pause() || fs::symlink_metadata(&target.path).is_ok_and(|found| found.is_symlink()) {
            return Err(replaced(&target.shown));
        }
    }
}

/// A change replaces a file under one of its names; the others would keep the old store.
fn several_names(path: &Path, names: u64) -> Failure {
    let words = format!("{}: has {names} names (hard links), and a change would reach this one alone", shown(path));
    let path = quoted(path);
    Failure::file(words).advising(format!(
        "remove the other names (`find / -samefile {path}` shows them), or make them symbolic links to this one."
    ))
}

/// Writes a store to a file that is not there yet; one that is made from another has its rights.
pub fn create(path: &Path, store: Store, patience: &Patience, like: Option<Attributes>) -> Result<(), Failure> {
    refuse_existing(path)?;
    let target = Target::new_or_existing(path)?;
    let draft = Draft::begin(&target, patience, if like.is_some() { PRIVATE } else { USUAL })?;
    if let Some(old) = like {
        draft.take_after(old)?;
    }
    let (pool, table) = store.into_parts();
    draft.replace(&encode(pool, &table), Over::Nothing)
}

pub fn refuse_existing(path: &Path) -> Result<(), Failure> {
    // A link that leads nowhere exists too.
    match path.symlink_metadata() {
        Ok(_) => Err(exists(path)),
        Err(_) => Ok(()),
    }
}

fn sound_store(path: &Path, file: File, metadata: Metadata) -> Result<Opened, Failure> {
    phase("read the file");
    let bytes = contents(path, &file, &metadata)?;
    phase("test the checksums");
    let Content { parts, pool, table } = decode(bytes).map_err(|misfit| not_a_store(path, &misfit))?;
    phase("check that the store is sound");
    let store = Store::from_parts(pool, table).map_err(|refusal| advice::unsound(refusal, path))?;
    Ok(Opened { store, file, metadata, has_sums: parts.has_sums() })
}

fn not_a_store(path: &Path, misfit: &Misfit) -> Failure {
    let failure = Failure::file(format!("{}: {misfit}", shown(path)));
    match misfit {
        Misfit::Sums { .. } | Misfit::Length { .. } => failure.advising(advice::damaged(path)),
        _ => failure,
    }
}

/// The file's bytes, unless it is longer than any store: then nothing is allocated for it.
fn contents(path: &Path, file: &File, metadata: &Metadata) -> Result<Vec<u8>, Failure> {
    let bytes = metadata.len();
    if bytes > form::largest() {
        return Err(not_a_store(path, &Misfit::TooLong { bytes }));
    }
    first_bytes(path, file, bytes)
}

fn first_bytes(path: &Path, file: &File, bytes: u64) -> Result<Vec<u8>, Failure> {
    let mut contents = vec![0; bytes as usize];
    file.read_exact_at(&mut contents, 0).map_err(|error| cannot_read(path, &error))?;
    Ok(contents)
}
