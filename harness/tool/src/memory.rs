//! Memory that cannot be had ends the run in order: what it has made is removed, and the exit status is 3.

use crate::{leftovers, streams};
use std::alloc::{GlobalAlloc, Layout, System};
use std::ffi::{c_int, c_void};
use std::ptr::null_mut;
use std::sync::atomic::{AtomicBool, AtomicPtr, Ordering};

/// The system's allocator, for a program's `#[global_allocator]`.
pub struct Careful;

/// Given back when there is no more, so that there is a little for the last things to be done. So much is a mapping of
/// its own, and goes back to the system: a thread that could get no heap of its own can use it too.
const RESERVE: Layout = Layout::new::<[u8; 524_288]>();
static RESERVED: AtomicPtr<u8> = AtomicPtr::new(null_mut());

/// Whether the file has been replaced already.
static CHANGED: AtomicBool = AtomicBool::new(false);
/// Whether files are only replaced in a play.
static PLAYED: AtomicBool = AtomicBool::new(false);

/// To be called once, at the start.
pub fn reserve() {
    // SAFETY: the layout has bytes.
    RESERVED.store(unsafe { System.alloc(RESERVE) }, Ordering::Relaxed);
}

/// From now on the change is made.
pub fn changed() {
    CHANGED.store(true, Ordering::Relaxed);
}

/// From now on no change counts: what the run makes, it removes again.
pub fn played() {
    PLAYED.store(true, Ordering::Relaxed);
}

// SAFETY: all is the system's allocator's, but that memory which cannot be had ends the process.
unsafe impl GlobalAlloc for Careful {
    unsafe fn alloc(&self, layout: Layout) -> *mut u8 {
        given(unsafe { System.alloc(layout) })
    }

    unsafe fn alloc_zeroed(&self, layout: Layout) -> *mut u8 {
        given(unsafe { System.alloc_zeroed(layout) })
    }

    unsafe fn realloc(&self, memory: *mut u8, layout: Layout, bytes: usize) -> *mut u8 {
        given(unsafe { System.realloc(memory, layout, bytes) })
    }

    unsafe fn dealloc(&self, memory: *mut u8, layout: Layout) {
        unsafe { System.dealloc(memory, layout) }
    }
}

fn given(memory: *mut u8) -> *mut u8 {
    if memory.is_null() {
        end();
    }
    memory
}

/// Ends the process without using memory but the reserve.
fn end() -> ! {
    extern "C" {
        fn write(descriptor: c_int, bytes: *const c_void, length: usize) -> isize;
        fn _exit(status: c_int) -> !;
    }
    let reserved = RESERVED.swap(null_mut(), Ordering::Relaxed);
    if !reserved.is_null() {
        // SAFETY: it was allocated with this layout, and is given back once.
        unsafe { System.dealloc(reserved, RESERVE) };
        leftovers::remove_what_one_can();
    }
    let (words, status) = match CHANGED.load(Ordering::Relaxed) && !PLAYED.load(Ordering::Relaxed) {
        true => ("lurdempos: the change is made, but there was not enough memory for the reply\n", 0),
        false => ("lurdempos: there is not enough memory; nothing was altered\n", 3),
    };
    let length = if streams::error_is_muted() { 0 } else { words.len() };
    // SAFETY: the bytes of the words are lent for reading; then the process ends.
    unsafe {
        write(2, words.as_ptr().cast(), length);
        _exit(status)
    }
}
