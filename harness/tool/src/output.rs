//! What is written beside the store: restored images and pictures.

use crate::attributes::Attributes;
use crate::draft::{Draft, Over, USUAL};
use crate::files::same;
use crate::form;
use crate::names::shown;
use crate::patience::Patience;
use crate::target::Target;
use crate::Failure;
use std::fs::{self, File, Metadata, OpenOptions};
use std::io::{ErrorKind, Read, Write};
use std::os::unix::fs::PermissionsExt;
use std::path::Path;

/// A file to be written.
pub struct Output<'a> {
    pub path: &'a Path,
    /// Whether a store or a protected file may be replaced too.
    pub force: bool,
    /// The permissions, if the file is new; without them the user's own for new files.
    pub mode: Option<u32>,
    pub patience: Patience,
}

impl Output<'_> {
    /// Writes the whole file, or nothing of it.
    pub fn put(&self, bytes: &[u8]) -> Result<(), Failure> {
        match fs::metadata(self.path) {
            Ok(found) if found.is_dir() => Err(Failure::file(format!("{}: is a folder", shown(self.path)))),
            // A device or a pipe must not be replaced by a file, and has no half to leave behind.
            Ok(found) if !found.is_file() => pass_on(self.path, bytes),
            Ok(found) => {
                self.refuse_protected(&found)?;
                self.replace(bytes, Some(&found))
            }
            Err(_) => self.replace(bytes, None),
        }
    }

    fn replace(&self, bytes: &[u8], old: Option<&Metadata>) -> Result<(), Failure> {
        let target = Target::new_or_existing(self.path)?;
        let draft = Draft::begin(&target, &self.patience, self.mode.unwrap_or(USUAL))?;
        match (old, self.mode) {
            (Some(metadata), _) => {
                let file = File::open(&target.path).ok();
                draft.take_after(Attributes { metadata, file: file.as_ref() })?;
            }
            (None, Some(mode)) => draft.permit(mode)?,
            (None, None) => {}
        }
        draft.replace(bytes, Over::Anything)
    }

    /// Wrong use without `--force` if the file is a store, or if its owner has taken the write bit away.
    fn refuse_protected(&self, found: &Metadata) -> Result<(), Failure> {
        let why = if begins_as_a_store(self.path) {
            "is a store, which would be lost"
        } else if found.permissions().mode() & 0o200 == 0 || may_not_be_written(self.path) {
            "is write-protected"
        } else {
            return Ok(());
        };
        if self.force {
            return Ok(());
        }
        let failure = Failure::usage(format!("{} {why}; it was not altered", shown(self.path)));
        Err(failure.advising("choose another output, or add `--force` to replace it."))
    }
}

fn begins_as_a_store(path: &Path) -> bool {
    let mut begin = Vec::new();
    let read = File::open(path).and_then(|file| file.take(64).read_to_end(&mut begin));
    read.is_ok() && form::is_store(&begin)
}

fn may_not_be_written(path: &Path) -> bool {
    OpenOptions::new().write(true).open(path).is_err_and(|error| error.kind() == ErrorKind::PermissionDenied)
}

fn pass_on(path: &Path, bytes: &[u8]) -> Result<(), Failure> {
    let opened = OpenOptions::new().write(true).open(path);
    opened.and_then(|mut file| file.write_all(bytes)).map_err(|error| Failure::io(path, "could not be written", &error))
}

/// Wrong use if the output is a store's own file, which would be lost, or a descriptor that leads there.
pub fn apart(store: &Path, what: &str, output: &Path) -> Result<(), Failure> {
    let (Ok(one), Ok(other)) = (fs::metadata(store), fs::metadata(output)) else {
        return Ok(());
    };
    if same(&one, &other) && output != Path::new("-") {
        return Err(Failure::usage(format!("{} is {what}; the output needs another file", shown(output))));
    }
    Ok(())
}
