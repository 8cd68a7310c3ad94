//! Signals that end a run: what it has made so far is removed first, then the signal does what it always does.

use crate::leftovers;
use std::ffi::{c_int, c_void};
use std::io::{self, Read};
use std::os::fd::{AsRawFd, IntoRawFd, RawFd};
use std::sync::atomic::{AtomicI32, Ordering};
use std::thread;

const HANGUP: c_int = 1;
const INTERRUPT: c_int = 2;
const TERMINATE: c_int = 15;
/// A file would grow past the limit that is set for it.
const FILE_SIZE: c_int = 25;

const DEFAULT: usize = 0;
const IGNORED: usize = 1;

extern "C" {
    fn signal(number: c_int, handler: usize) -> usize;
    fn raise(number: c_int) -> c_int;
    fn write(descriptor: c_int, bytes: *const c_void, length: usize) -> isize;
}

/// Where the handler writes the number of a signal.
static PIPE: AtomicI32 = AtomicI32::new(-1);

/// Has the signals watched for. To be called once, at the start.
pub fn watch() -> io::Result<()> {
    // Without this one the write fails and says so, and the draft is removed like with any other write that fails.
    set(FILE_SIZE, IGNORED);
    let (mut reader, writer) = io::pipe()?;
    PIPE.store(writer.as_raw_fd(), Ordering::Relaxed);
    let _open_for_good: RawFd = writer.into_raw_fd();
    thread::Builder::new().spawn(move || {
        let mut number = [0];
        if reader.read_exact(&mut number).is_ok() {
            leftovers::remove_all();
            end_by(number[0].into());
        }
    })?;
    for number in [HANGUP, INTERRUPT, TERMINATE] {
        // Whoever starts a run with a signal ignored, as `nohup` does, wants it to be ignored.
        if set(number, noted as *const () as usize) == IGNORED {
            set(number, IGNORED);
        }
    }
    Ok(())
}

/// The handler may hardly do anything; a thread that waits at the pipe does the rest.
extern "C" fn noted(number: c_int) {
    let number = number as u8;
    // SAFETY: one byte is lent for reading.
    unsafe { write(PIPE.load(Ordering::Relaxed), (&raw const number).cast(), 1) };
}

fn set(number: c_int, handler: usize) -> usize {
    // SAFETY: the handler is one of the two that the system has, or `noted`, which calls nothing but `write`.
    unsafe { signal(number, handler) }
}

fn end_by(number: c_int) {
    set(number, DEFAULT);
    // SAFETY: this ends the process, by the signal that it got.
    unsafe { raise(number) };
}
