//! What a file has besides its bytes: owner, group, permissions, and extended attributes, access lists among them. A
//! draft gets those of the file that it will replace.

use std::fs::{File, Metadata};
use std::io;
use std::os::unix::fs::{fchown, MetadataExt, PermissionsExt};

/// The attribute that an access list is kept in.
const ACCESS_LIST: &[u8] = b"system.posix_acl_access";

/// What a file has besides its bytes. Of one that may not be opened the extended attributes stay unknown.
pub struct Attributes<'a> {
    pub metadata: &'a Metadata,
    pub file: Option<&'a File>,
}

impl Attributes<'_> {
    /// Gives all of it to the draft. It fails if somebody would get other rights than before.
    pub fn give_to(&self, draft: &File) -> io::Result<()> {
        let own = draft.metadata()?;
        if own.gid() != self.metadata.gid() {
            fchown(draft, None, Some(self.metadata.gid())).map_err(|error| self.group_lost(&error))?;
        }
        if own.uid() != self.metadata.uid() {
            // Only root can give a file away; for others the owner is the one who writes, as with any other program.
            let _ = fchown(draft, Some(self.metadata.uid()), None);
        }
        if let Some(file) = self.file {
            copy_extended(file, draft)?;
        }
        draft.set_permissions(PermissionsExt::from_mode(self.metadata.mode() & 0o7777))
    }

    fn group_lost(&self, error: &io::Error) -> io::Error {
        let words = format!("its group {} cannot be kept by this user: {error}", self.metadata.gid());
        io::Error::new(error.kind(), words)
    }
}

/// Copies the extended attributes that the system lets one copy. An access list has to be kept, and one that the draft
/// has from its folder has to go: they are rights.
fn copy_extended(from: &File, to: &File) -> io::Result<()> {
    let names = extended::names(from);
    for name in extended::names(to).iter().filter(|name| !names.contains(name)) {
        let removed = extended::remove(to, name);
        if name == ACCESS_LIST {
            removed?;
        }
    }
    for name in &names {
        let copied = extended::value(from, name).and_then(|value| extended::set(to, name, &value));
        if name == ACCESS_LIST {
            copied.map_err(|error| io::Error::new(error.kind(), format!("its access list cannot be kept: {error}")))?;
        }
    }
    Ok(())
}

/// The system's calls for extended attributes.
#[cfg(target_os = "linux")]
mod extended {
    use std::ffi::{c_char, c_int, c_void, CString};
    use std::fs::File;
    use std::io;
    use std::os::fd::AsRawFd;

    extern "C" {
        fn flistxattr(file: c_int, list: *mut c_char, size: usize) -> isize;
        fn fgetxattr(file: c_int, name: *const c_char, value: *mut c_void, size: usize) -> isize;
        fn fsetxattr(file: c_int, name: *const c_char, value: *const c_void, size: usize, flags: c_int) -> c_int;
        fn fremovexattr(file: c_int, name: *const c_char) -> c_int;
    }

    /// None where the file system has no such attributes.
    pub fn names(file: &File) -> Vec<Vec<u8>> {
        // SAFETY: the bytes lent are as many as `size` says, or none.
        let list = whole(|bytes, size| unsafe { flistxattr(file.as_raw_fd(), bytes.cast(), size) }).unwrap_or_default();
        list.split(|&byte| byte == 0).filter(|name| !name.is_empty()).map(<[u8]>::to_vec).collect()
    }

    pub fn value(file: &File, name: &[u8]) -> io::Result<Vec<u8>> {
        let name = CString::new(name)?;
        // SAFETY: the name ends with zero, and the bytes lent are as many as `size` says, or none.
        whole(|bytes, size| unsafe { fgetxattr(file.as_raw_fd(), name.as_ptr(), bytes.cast(), size) })
    }

    pub fn set(file: &File, name: &[u8], value: &[u8]) -> io::Result<()> {
        let name = CString::new(name)?;
        // SAFETY: the name ends with zero, and the value is a slice.
        done(unsafe { fsetxattr(file.as_raw_fd(), name.as_ptr(), value.as_ptr().cast(), value.len(), 0) })
    }

    pub fn remove(file: &File, name: &[u8]) -> io::Result<()> {
        let name = CString::new(name)?;
        // SAFETY: the name ends with zero.
        done(unsafe { fremovexattr(file.as_raw_fd(), name.as_ptr()) })
    }

    /// All that a call has to give: it is asked for the length first.
    fn whole(call: impl Fn(*mut u8, usize) -> isize) -> io::Result<Vec<u8>> {
        let size = usize::try_from(call(std::ptr::null_mut(), 0)).map_err(|_| io::Error::last_os_error())?;
        let mut bytes = vec![0; size];
        let size = usize::try_from(call(bytes.as_mut_ptr(), size)).map_err(|_| io::Error::last_os_error())?;
        bytes.truncate(size);
        Ok(bytes)
    }

    fn done(answer: c_int) -> io::Result<()> {
        if answer == 0 {
            return Ok(());
        }
        Err(io::Error::last_os_error())
    }
}

/// Elsewhere these calls are others; the attributes are left.
#[cfg(not(target_os = "linux"))]
mod extended {
    use std::fs::File;
    use std::io;

    pub fn names(_: &File) -> Vec<Vec<u8>> {
        Vec::new()
    }

    pub fn value(_: &File, _: &[u8]) -> io::Result<Vec<u8>> {
        Ok(Vec::new())
    }

    pub fn set(_: &File, _: &[u8], _: &[u8]) -> io::Result<()> {
        Ok(())
    }

    pub fn remove(_: &File, _: &[u8]) -> io::Result<()> {
        Ok(())
    }
}
