//! A folder that is filled under another name and then put in its place: nobody sees half of it.

use crate::files::folder_of;
use crate::names::{quoted, shown};
use crate::reply::warn;
use crate::steps::step;
use crate::storefile::refuse_existing;
use crate::target::{cannot_make_in, draft_name, refused_access};
use crate::{leftovers, memory, Failure};
use std::fs::{self, DirBuilder, File, OpenOptions};
use std::io::{self, ErrorKind, Write};
use std::os::unix::fs::{DirBuilderExt, OpenOptionsExt, PermissionsExt};
use std::path::{Path, PathBuf};

pub struct NewFolder<'a> {
    path: &'a Path,
    /// The folder that it will lie in, and its name until it is whole.
    parent: PathBuf,
    draft: PathBuf,
    /// Permissions of the files.
    mode: u32,
    settled: bool,
}

impl<'a> NewFolder<'a> {
    /// A folder that is not there yet, for files with these permissions.
    pub fn begin(path: &'a Path, mode: u32) -> Result<NewFolder<'a>, Failure> {
        refuse_existing(path)?;
        let Some(name) = path.file_name() else {
            return Err(Failure::file(format!("{}: names no folder", shown(path))));
        };
        let failed = |error: io::Error| refused_access(path, "could not be made", &error);
        let parent = fs::canonicalize(folder_of(path)).map_err(failed)?;
        let draft = parent.join(draft_name(name));
        let made = leftovers::make_folder(&draft, || {
            step()?;
            DirBuilder::new().mode(0o700).create(&draft)
        });
        match made {
            Ok(()) => Ok(NewFolder { path, parent, draft, mode: mode & 0o777, settled: false }),
            Err(error) if error.kind() == ErrorKind::AlreadyExists => Err(in_the_way(path, &draft)),
            Err(error) if error.kind() == ErrorKind::PermissionDenied => Err(cannot_make_in(&parent, failed(error))),
            Err(error) => Err(failed(error)),
        }
    }

    /// Writes a file in it.
    pub fn put(&self, name: &str, bytes: &[u8]) -> Result<(), Failure> {
        self.write(name, bytes).map_err(|error| self.failed(&error))
    }

    fn write(&self, name: &str, bytes: &[u8]) -> io::Result<()> {
        step()?;
        let path = self.draft.join(name);
        let mut file = OpenOptions::new().write(true).create_new(true).mode(0o600).open(path)?;
        file.set_permissions(PermissionsExt::from_mode(self.mode))?;
        file.write_all(bytes)?;
        file.sync_all()
    }

    /// Puts it in its place.
    pub fn finish(mut self) -> Result<(), Failure> {
        refuse_existing(self.path)?;
        let parent = self.rename().map_err(|error| self.failed(&error))?;
        self.settled = true;
        memory::changed();
        if let Err(error) = parent.sync_all() {
            warn(&format!("{}: written, but a power cut may still undo it: {error}", shown(self.path)));
        }
        Ok(())
    }

    /// Gives the folder that it lies in now.
    fn rename(&self) -> io::Result<File> {
        // Whoever may read a file may look into the folder.
        let mode = 0o700 | self.mode | (self.mode & 0o444) >> 2;
        fs::set_permissions(&self.draft, PermissionsExt::from_mode(mode))?;
        File::open(&self.draft)?.sync_all()?;
        let parent = File::open(&self.parent)?;
        let name = self.path.file_name().unwrap_or_default();
        leftovers::settle(&self.draft, || {
            step()?;
            fs::rename(&self.draft, self.parent.join(name))
        })?;
        Ok(parent)
    }

    fn failed(&self, error: &io::Error) -> Failure {
        refused_access(self.path, "could not be written, and was not made", error)
    }
}

impl Drop for NewFolder<'_> {
    /// A folder that is not whole goes away.
    fn drop(&mut self) {
        if !self.settled {
            let _ = leftovers::settle(&self.draft, || fs::remove_dir_all(&self.draft));
        }
    }
}

/// A folder is not removed with all that is in it because of its name alone.
fn in_the_way(path: &Path, draft: &Path) -> Failure {
    let words = format!("{}: the draft {} of another run is in the way", shown(path), shown(draft));
    Failure::file(words).advising(format!("if that run was killed, remove it: `rm -r {}`.", quoted(draft)))
}
