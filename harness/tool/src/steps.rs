//! The steps of a run at which a file or a folder is about to change, counted from 1, and the phases between them. A
//! test build or a benchmark can watch them: kill the run at a step, let a step fail, or take the time of a phase. The
//! tool itself is watched by nobody.

use std::io;
use std::sync::atomic::{AtomicU32, Ordering};
use std::sync::OnceLock;

/// Somebody who watches.
pub trait Watch: Sync {
    /// Before every step that changes a file or a folder, and in the middle of every write.
    fn step(&self, _number: u32) -> io::Result<()> {
        Ok(())
    }

    /// At the beginning of a phase.
    fn phase(&self, _name: &'static str) {}
}

static WATCH: OnceLock<&'static dyn Watch> = OnceLock::new();
static PASSED: AtomicU32 = AtomicU32::new(0);

/// Lets somebody watch, once for the whole process.
pub fn watch(watch: &'static dyn Watch) {
    let _ = WATCH.set(watch);
}

pub(crate) fn step() -> io::Result<()> {
    let number = PASSED.fetch_add(1, Ordering::Relaxed) + 1;
    WATCH.get().map_or(Ok(()), |watch| watch.step(number))
}

pub(crate) fn phase(name: &'static str) {
    if let Some(watch) = WATCH.get() {
        watch.phase(name);
    }
}
