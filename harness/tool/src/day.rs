//! The images of a closing: named on the command line, or in a folder under the numbers of their tills.

use crate::arguments::{is_plain, Arguments};
use crate::names::shown;
use crate::target::cannot_read;
use crate::{image, Failure};
use lurdempos::MOST_IMAGES;
use std::ffi::OsStr;
use std::fs;
use std::os::unix::ffi::OsStrExt;
use std::path::{Path, PathBuf};

/// A till with the file that has its image.
pub type Named = (u32, PathBuf);

/// An image that is to be kept.
pub struct Sent {
    pub till: u32,
    pub path: PathBuf,
    pub image: Vec<u8>,
}

/// The images that the command line asks for, in the order in which they are kept.
pub fn named(arguments: &Arguments) -> Result<Vec<Named>, Failure> {
    let words = arguments.words_from(1);
    match (words, arguments.value("--folder")) {
        ([], None) => Err(arguments.missing("TILL=IMAGE")),
        ([], Some(folder)) if folder.is_empty() => Err(arguments.wrong("option --folder needs a folder")),
        ([], Some(folder)) => in_folder(Path::new(folder)),
        (_, Some(_)) => Err(arguments.wrong("TILL=IMAGE and --folder both say what is kept; give one of them")),
        (_, None) => {
            let named: Vec<Named> = words.iter().map(|word| pair(arguments, word)).collect::<Result<_, _>>()?;
            match named.iter().filter(|(_, path)| path == Path::new("-")).count() {
                0 | 1 => Ok(named),
                _ => Err(arguments.wrong("`-` can stand for one image only")),
            }
        }
    }
}

/// Their bytes. Of more than a closing takes one too many is read, which is enough to have them refused.
pub fn read(named: Vec<Named>) -> Result<Vec<Sent>, Failure> {
    let one = |(till, path): Named| image::read(&path).map(|image| Sent { till, path, image });
    named.into_iter().take(MOST_IMAGES + 1).map(one).collect()
}

/// A word that names a till and its image.
fn pair(arguments: &Arguments, word: &OsStr) -> Result<Named, Failure> {
    let mut parts = word.as_bytes().splitn(2, |&byte| byte == b'=').map(OsStr::from_bytes);
    match (parts.next(), parts.next()) {
        (Some(till), Some(path)) if !path.is_empty() => Ok((arguments.parsed("TILL", till)?, path.into())),
        _ => Err(arguments.wrong(&format!("`{}` is not TILL=IMAGE", shown(word)))),
    }
}

/// All files of a folder, in the order of their tills. Whatever is no till's image is wrong use: a till that is left out
/// because of a misspelt name would be missed too late.
fn in_folder(folder: &Path) -> Result<Vec<Named>, Failure> {
    let failed = |error| cannot_read(folder, &error);
    let entries = fs::read_dir(folder).map_err(failed)?;
    let mut paths: Vec<PathBuf> =
        entries.map(|entry| entry.map(|entry| entry.path())).collect::<Result<_, _>>().map_err(failed)?;
    paths.sort();
    let mut named: Vec<Named> = paths.into_iter().map(in_its_name).collect::<Result<_, _>>()?;
    named.sort();
    if named.is_empty() {
        return Err(wrong(&format!("{}: has no image", shown(folder))));
    }
    match named.windows(2).find(|pair| pair[0].0 == pair[1].0) {
        Some(pair) => {
            let (one, other, till) = (shown(&pair[0].1), shown(&pair[1].1), pair[0].0);
            let failure = Failure::usage(format!("{one} and {other} are both of till {till}; nothing was kept"));
            Err(failure.advising("leave one of them; several images of one till are kept with TILL=IMAGE."))
        }
        None => Ok(named),
    }
}

/// The till that a file's name begins with, up to the first dot.
fn in_its_name(path: PathBuf) -> Result<Named, Failure> {
    if !fs::metadata(&path).is_ok_and(|found| found.is_file()) {
        return Err(wrong(&format!("{}: not a regular file", shown(&path))));
    }
    let name = path.file_name().and_then(OsStr::to_str).unwrap_or_default();
    let till = name.split('.').next().filter(|text| is_plain(text)).and_then(|text| text.parse().ok());
    match till {
        Some(till) => Ok((till, path)),
        None => Err(wrong(&format!("{}: not named by a till's number", shown(&path)))),
    }
}

/// A folder that is not a day's images.
fn wrong(words: &str) -> Failure {
    Failure::usage(format!("{words}; nothing was kept"))
        .advising("name each image by its till, as 3 or 3.img, and have nothing else in the folder.")
}
