//! Images on their way into the store and out of it.

use crate::json::Json;
use crate::names::shown;
use crate::target::cannot_read;
use crate::words::bytes;
use crate::Failure;
use lurdempos::LONGEST_IMAGE;
use std::fs::File;
use std::io::{self, Read};
use std::path::Path;

/// The image in a file, or on standard input for `-`; or its beginning if it is longer than any store takes.
pub fn read(path: &Path) -> Result<Vec<u8>, Failure> {
    read_beginning(path, LONGEST_IMAGE as usize + 1)
}

/// So many bytes of a file, or of standard input for `-`, or all if there are fewer.
pub fn read_beginning(path: &Path, most: usize) -> Result<Vec<u8>, Failure> {
    let mut bytes = Vec::new();
    let read = if is_input(path) {
        io::stdin().lock().take(most as u64).read_to_end(&mut bytes)
    } else {
        File::open(path).and_then(|file| file.take(most as u64).read_to_end(&mut bytes))
    };
    match read {
        Ok(_) => Ok(bytes),
        Err(error) if is_input(path) => Err(Failure::file(format!("{}: cannot be read: {error}", name(path)))),
        Err(error) => Err(cannot_read(path, &error)),
    }
}

fn is_input(path: &Path) -> bool {
    path == Path::new("-")
}

/// What it is called in messages.
pub fn name(path: &Path) -> String {
    if is_input(path) {
        return "standard input".into();
    }
    shown(path)
}

/// Its length. Of one that is longer than any store takes only the beginning was read: then it is not known.
pub fn whole_length(image: &[u8]) -> Option<usize> {
    Some(image.len()).filter(|&length| length <= LONGEST_IMAGE as usize)
}

/// The same in words.
pub fn length(image: &[u8]) -> String {
    whole_length(image).map_or_else(|| format!("more than {LONGEST_IMAGE} bytes"), bytes)
}

/// A version with its bytes, for programs.
pub fn fields(version: u32, bytes: usize) -> Json {
    Json::object([("version", version.into()), ("bytes", bytes.into())])
}

/// What a version's image is called in a folder.
pub fn file_name(till: u32, version: u32) -> String {
    format!("till-{till}-version-{version}.img")
}
