//! Descriptors that a run is given: standard output and others, as `/dev/fd/3`. They are written to as they are, at the
//! place where they stand; a file behind one is never replaced.

use crate::files::{folder_of, same};
use crate::names::shown;
use crate::Failure;
use std::ffi::c_int;
use std::fmt;
use std::fs::{self, File};
use std::io::{self, Write};
use std::os::fd::{BorrowedFd, RawFd};
use std::path::Path;
use std::sync::atomic::{AtomicBool, Ordering};

/// How many links are followed to a descriptor.
const LINKS: usize = 40;

#[derive(Clone, Copy, Debug, PartialEq, Eq)]
pub struct Stream(RawFd);

impl Stream {
    const IN: Stream = Stream(0);
    pub const OUT: Stream = Stream(1);
    const ERROR: Stream = Stream(2);

    /// The descriptor that a path stands for: `-`, `/dev/stdout`, `/dev/fd/3`, or a link to one. None for other paths.
    pub fn named(path: &Path) -> Option<Stream> {
        if path == Path::new("-") {
            return Some(Stream::OUT);
        }
        // A thread has a folder of its own for them.
        let descriptors = ["/dev/fd", "/proc/thread-self/fd"].map(|folder| fs::canonicalize(folder).ok());
        let mut path = path.to_owned();
        for _ in 0..LINKS {
            let folder = fs::canonicalize(folder_of(&path)).ok()?;
            if descriptors.iter().flatten().any(|descriptors| *descriptors == folder) {
                return path.file_name()?.to_str()?.parse().ok().filter(|&number| number >= 0).map(Stream);
            }
            path = folder.join(fs::read_link(&path).ok()?);
        }
        None
    }

    pub fn put(self, bytes: &[u8]) -> io::Result<()> {
        if !self.was_given() {
            return Err(io::Error::other("it is closed"));
        }
        self.open()?.write_all(bytes)
    }

    /// Whether the run was started with it. A descriptor of the run's own has the flag that closes it when another program
    /// is started, and one that was given has not.
    fn was_given(self) -> bool {
        let closed = STANDARD.iter().zip(&CLOSED).any(|(one, closed)| *one == self && closed.load(Ordering::Relaxed));
        !closed && flags(self.0) & CLOSE_ON_EXEC == 0
    }

    /// Whether what is written here would go into this file.
    fn leads_to(self, file: &fs::Metadata) -> bool {
        self.open().and_then(|own| own.metadata()).is_ok_and(|own| same(&own, file))
    }

    fn open(self) -> io::Result<File> {
        // SAFETY: a number that is not open is refused by the system with an error.
        let descriptor = unsafe { BorrowedFd::borrow_raw(self.0) };
        descriptor.try_clone_to_owned().map(File::from)
    }
}

impl fmt::Display for Stream {
    fn fmt(&self, f: &mut fmt::Formatter<'_>) -> fmt::Result {
        match *self {
            Stream::OUT => write!(f, "standard output"),
            Stream::ERROR => write!(f, "standard error"),
            Stream(number) => write!(f, "descriptor {number}"),
        }
    }
}

static MUTED: AtomicBool = AtomicBool::new(false);

/// Wrong use if standard output or standard error leads into the store: a reply would be appended to it.
pub fn apart_from(path: &Path) -> Result<(), Failure> {
    let Ok(store) = fs::metadata(path) else {
        return Ok(());
    };
    // Then not even this failure may be told.
    MUTED.store(Stream::ERROR.leads_to(&store), Ordering::Relaxed);
    match [Stream::OUT, Stream::ERROR].into_iter().find(|stream| stream.leads_to(&store)) {
        Some(stream) => Err(Failure::usage(format!("{stream} is {}, the store itself", shown(path)))
            .advising("let it go to a terminal or to another file.")),
        None => Ok(()),
    }
}

pub fn error_is_muted() -> bool {
    MUTED.load(Ordering::Relaxed)
}

const STANDARD: [Stream; 3] = [Stream::IN, Stream::OUT, Stream::ERROR];

/// Which of these were closed when the process began. Rust's library puts /dev/null there before `main`, where an image
/// would be lost unseen; so one has to look earlier.
static CLOSED: [AtomicBool; 3] = [const { AtomicBool::new(false) }; 3];

#[used]
#[cfg_attr(target_os = "linux", link_section = ".init_array")]
#[cfg_attr(target_vendor = "apple", link_section = "__DATA,__mod_init_func")]
static LOOK: extern "C" fn() = look;

extern "C" fn look() {
    for (stream, closed) in STANDARD.iter().zip(&CLOSED) {
        closed.store(flags(stream.0) == NOT_OPEN, Ordering::Relaxed);
    }
}

const NOT_OPEN: c_int = -1;
const CLOSE_ON_EXEC: c_int = 1;

/// A descriptor's flags.
fn flags(descriptor: RawFd) -> c_int {
    const F_GETFD: c_int = 1;
    extern "C" {
        fn fcntl(descriptor: c_int, command: c_int, ...) -> c_int;
    }
    // SAFETY: this asks for a descriptor's flags and touches no memory.
    unsafe { fcntl(descriptor, F_GETFD) }
}
