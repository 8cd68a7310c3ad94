//! A file that the tool replaces as a whole: where it really lies, and the draft beside it.

use crate::checksum::crc32c;
use crate::files::folder_of;
use crate::names::{quoted, shown};
use crate::Failure;
use std::ffi::{OsStr, OsString};
use std::fs;
use std::io::{self, ErrorKind};
use std::os::unix::ffi::OsStrExt;
use std::path::{Path, PathBuf};

/// What stands in the name of a draft between the file's name and the checksum of that name.
const MARK: &str = ".lurdempos-draft-";
/// Bytes that a name can have.
const LONGEST_NAME: usize = 255;

#[derive(Debug)]
pub struct Target {
    /// As the caller spelt it, for messages.
    pub shown: PathBuf,
    /// Where the file lies, links followed, so that a replacement does not replace the link.
    pub path: PathBuf,
    pub folder: PathBuf,
    pub draft: PathBuf,
}

impl Target {
    /// A regular file that exists.
    pub fn existing(path: &Path) -> Result<Target, Failure> {
        regular(path)?;
        let found = fs::canonicalize(path).map_err(|error| cannot_read(path, &error))?;
        Target::at(path, found)
    }

    /// A file that need not exist yet, in a folder that does.
    pub fn new_or_existing(path: &Path) -> Result<Target, Failure> {
        match fs::symlink_metadata(path) {
            Ok(_) => Target::existing(path),
            Err(error) if error.kind() == ErrorKind::NotFound => Target::fresh(path),
            Err(error) => Err(refused_access(path, "cannot be written", &error)),
        }
    }

    fn fresh(path: &Path) -> Result<Target, Failure> {
        let name = path.file_name().filter(|_| !path.as_os_str().as_bytes().ends_with(b"/"));
        let Some(name) = name else {
            return Err(Failure::file(format!("{}: names no file", shown(path))));
        };
        let folder = folder_of(path);
        let found = fs::canonicalize(&folder)
            .map_err(|error| refused_access(path, &format!("its folder cannot be used: {}", shown(&folder)), &error))?;
        Target::at(path, found.join(name))
    }

    fn at(spelt: &Path, path: PathBuf) -> Result<Target, Failure> {
        let (Some(folder), Some(name)) = (path.parent(), path.file_name()) else {
            return Err(Failure::file(format!("{}: names no file", shown(spelt))));
        };
        // A draft has none itself: a run could then replace the draft of another one.
        if is_draft(name) {
            let words =
                format!("{}: names that end in {MARK} and eight digits are for the tool's drafts", shown(spelt));
            return Err(Failure::usage(words));
        }
        let draft = folder.join(draft_name(name));
        Ok(Target { shown: spelt.to_owned(), folder: folder.to_owned(), draft, path })
    }
}

/// The name of a file's draft: the file's own, as much of it as there is room for, and a checksum of all of it. Nobody
/// calls a file so by chance; whatever has this name is a draft of the tool.
pub fn draft_name(name: &OsStr) -> OsString {
    let tail = format!("{MARK}{:08x}", crc32c(name.as_bytes()));
    let mut length = name.len().min(LONGEST_NAME - tail.len());
    // Not in the middle of a letter: some file systems take whole letters only.
    while name.as_bytes().get(length).is_some_and(|byte| byte & 0xc0 == 0x80) {
        length -= 1;
    }
    let mut draft = OsStr::from_bytes(&name.as_bytes()[..length]).to_owned();
    draft.push(tail);
    draft
}

fn is_draft(name: &OsStr) -> bool {
    let name = name.as_bytes();
    let Some((begin, digits)) = name.split_last_chunk::<8>() else {
        return false;
    };
    begin.ends_with(MARK.as_bytes()) && digits.iter().all(u8::is_ascii_hexdigit)
}

/// Fails if there is no regular file of this name. Asked before a file is opened, since opening a pipe could wait for
/// ever.
pub fn regular(path: &Path) -> Result<(), Failure> {
    match fs::metadata(path) {
        Ok(found) if found.is_file() => Ok(()),
        Ok(_) => Err(Failure::file(format!("{}: not a regular file", shown(path)))),
        Err(error) => Err(cannot_read(path, &error)),
    }
}

pub fn cannot_read(path: &Path, error: &io::Error) -> Failure {
    refused_access(path, "cannot be read", error)
}

/// A file could not be reached; if a folder on the way to it is closed to this user, that folder is named.
pub fn refused_access(path: &Path, what: &str, error: &io::Error) -> Failure {
    let failure = Failure::io(path, what, error);
    if error.kind() != ErrorKind::PermissionDenied {
        return failure;
    }
    match closed_folder(path) {
        Some(folder) => failure
            .advising(format!("the folder {} is closed to this user; ask its owner for access to it.", quoted(folder))),
        None => failure.advising("ask its owner for access to the file."),
    }
}

/// Nothing can be made in this folder by this user.
pub fn cannot_make_in(folder: &Path, failure: Failure) -> Failure {
    let folder = quoted(folder);
    failure.advising(format!("the folder {folder} may not be written by this user; ask its owner for that."))
}

/// The first folder on the way to a file in which this user may not look for anything.
fn closed_folder(path: &Path) -> Option<&Path> {
    let mut folders: Vec<&Path> = path.ancestors().skip(1).filter(|folder| *folder != Path::new("")).collect();
    folders.reverse();
    let closed =
        |folder: &&Path| fs::metadata(folder.join(".")).is_err_and(|error| error.kind() == ErrorKind::PermissionDenied);
    folders.into_iter().find(closed)
}

#[cfg(test)]
mod tests {
    use super::{draft_name, is_draft};
    use std::ffi::OsStr;

    #[test]
    fn drafts_have_names_that_fit() {
        for name in ["s", "shop.lur", &"x".repeat(255), &"ä".repeat(127)] {
            let draft = draft_name(OsStr::new(name));
            assert!(draft.len() <= 255 && is_draft(&draft), "{draft:?}");
            assert!(draft.to_str().is_some_and(|draft| draft.starts_with(&name[..name.len().min(200)])));
        }
        assert_ne!(draft_name(OsStr::new(&"x".repeat(254))), draft_name(OsStr::new(&"x".repeat(255))));
        assert!(!is_draft(OsStr::new("s.lurdempos-new")) && !is_draft(OsStr::new("s")));
    }
}
