//! Locks on open files, and who holds one.

use crate::names::shown;
use crate::patience::Patience;
use crate::words::counted;
use crate::Failure;
use std::fs::{self, File, Metadata, TryLockError};
use std::io;
use std::os::unix::fs::MetadataExt;
use std::path::Path;

/// Locks the file; false if somebody else has it locked.
pub fn lock(file: &File) -> io::Result<bool> {
    is_locked(file.try_lock())
}

/// The same together with others who only want the file to stay as it is.
pub fn share(file: &File) -> io::Result<bool> {
    is_locked(file.try_lock_shared())
}

fn is_locked(tried: Result<(), TryLockError>) -> io::Result<bool> {
    match tried {
        Ok(()) => Ok(true),
        Err(TryLockError::WouldBlock) => Ok(false),
        Err(TryLockError::Error(error)) => Err(error),
    }
}

/// Another process is at the file, and has been for as long as this run waits.
pub fn busy(path: &Path, held: Option<&File>, patience: &Patience) -> Failure {
    let id = held.and_then(holder).map_or(String::new(), |process| format!(" (process id {process})"));
    let words = format!("being written by another process{id}, which holds its lock; nothing was altered");
    Failure::busy(format!("{}: {words}", shown(path))).advising(format!(
        "wait until the other run has ended, then try again; this one has waited {}, `--wait SECONDS` waits longer.",
        counted(patience.seconds, "second")
    ))
}

/// How often the system's list of locks is read. While others come and go a reading of it can miss one that stays.
const READINGS: usize = 20;

/// The process that holds a lock on this file, if the system tells.
fn holder(file: &File) -> Option<u32> {
    let file = file.metadata().ok()?;
    holder_told(&file, || fs::read_to_string("/proc/locks").ok())
}

fn holder_told(file: &Metadata, mut read: impl FnMut() -> Option<String>) -> Option<u32> {
    (0..READINGS).find_map(|_| holder_among(&read()?, file))
}

fn holder_among(locks: &str, file: &Metadata) -> Option<u32> {
    let holders = locks.lines().filter_map(|line| holder_in(line, file));
    // Some file systems go by another device number here than elsewhere.
    let (_, process) = holders.max_by_key(|(same_device, _)| *same_device)?;
    Some(process)
}

/// From a line as `1: FLOCK  ADVISORY  WRITE 4711 08:01:131 0 EOF` the process, if it is about a file of this number,
/// and whether the device is the same too.
fn holder_in(line: &str, file: &Metadata) -> Option<(bool, u32)> {
    let words: Vec<&str> = line.split_whitespace().collect();
    let [_, "FLOCK", _, _, process, place, ..] = words[..] else {
        return None;
    };
    let (device, number) = place.rsplit_once(':')?;
    let process = process.parse().ok().filter(|&process| process > 0)?;
    (number.parse() == Ok(file.ino())).then(|| (device == device_name(file.dev()), process))
}

/// Major and minor number of a device, as /proc/locks has them.
fn device_name(device: u64) -> String {
    let major = device >> 8 & 0xfff | device >> 32 & !0xfff;
    let minor = device & 0xff | device >> 12 & !0xff;
    format!("{major:02x}:{minor:02x}")
}

#[cfg(test)]
mod tests {
    use super::{device_name, holder_told};
    use std::fs;
    use std::os::unix::fs::MetadataExt;

    #[test]
    fn a_lock_that_a_reading_misses() {
        let file = fs::metadata(env!("CARGO_MANIFEST_DIR")).unwrap();
        let lock = |id: u32, device: &str| format!("1: FLOCK  ADVISORY  WRITE {id} {device}:{} 0 EOF\n", file.ino());
        let (own, other) = (lock(4711, &device_name(file.dev())), lock(4712, "ff:ff"));
        let waiting = "1: -> FLOCK  ADVISORY  WRITE 7 08:01:9 0 EOF\n1: POSIX  ADVISORY  WRITE 8 08:01:9 0 EOF\n";
        let mut readings = [String::new(), waiting.into(), format!("{other}{own}{waiting}")].into_iter();
        assert_eq!(holder_told(&file, || readings.next()), Some(4711));
        assert_eq!(holder_told(&file, || Some(other.clone())), Some(4712));
        assert_eq!(holder_told(&file, || None), None);
    }
}
