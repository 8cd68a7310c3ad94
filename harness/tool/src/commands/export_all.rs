//! `export-all`: every image in a folder.

use crate::advice::{By, Call};
use crate::arguments::{Arguments, Named};
use crate::disk::Disk;
use crate::folder::NewFolder;
use crate::json::Json;
use crate::names::shown;
use crate::reply::Reply;
use crate::storefile::Opened;
use crate::syntax::{Argument, Command, Takes, FILE, USER, WITH};
use crate::table::Version;
use crate::words::{bytes, counted};
use crate::{calendar, image, table, Failure};
use lurdempos::Right;
use std::os::unix::fs::MetadataExt;

pub static COMMAND: Command = Command {
    name: "export-all",
    arguments: &[FILE, Argument::needed("FOLDER", Takes::Folder)],
    options: &[WITH, USER],
    about: "write the images of all versions to a folder",
    help: "
FOLDER must not exist yet; it is there with all images or not at all. They are called till-T-version-V.img.
Another user than the owner needs the right restore on every till that holds a version.
",
    run,
};

fn run(arguments: &Arguments) -> Result<Reply, Failure> {
    let (disk, user, path) = (Disk::asked(arguments)?, arguments.user()?, arguments.place(1)?);
    let file = disk.file;
    let Opened { store, metadata, .. } = disk.open()?;
    let folder = NewFolder::begin(path, metadata.mode())?;
    let mut written = Vec::new();
    for (till, versions) in (0..).zip(table::tills(&store)) {
        for version in versions {
            let call = Call::of_till(file, &store, By { user, till }, Right::Restore);
            let (number, image) = call.image_of(Named::Number(version.number))?;
            let name = image::file_name(till, number);
            folder.put(&name, &image)?;
            written.push((till, version, name, image.len()));
        }
    }
    folder.finish()?;
    let sum = written.iter().map(|(.., length)| length).sum();
    let versions = counted(written.len() as u64, "version");
    let text = format!("{}: {versions} written to {}, {}\n", shown(file), shown(path), bytes(sum));
    let one = |(till, version, name, length): &(u32, Version, String, usize)| {
        Json::object([
            ("till", (*till).into()),
            ("version", version.number.into()),
            ("day", version.day.into()),
            ("date", calendar::field(version.day)),
            ("bytes", (*length).into()),
            ("image", name.as_str().into()),
        ])
    };
    let fields =
        Json::object([("file", file.into()), ("folder", path.into()), ("versions", Json::list(&written, one))]);
    Ok(Reply::done(text, fields))
}
