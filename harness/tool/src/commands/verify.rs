//! `verify`: does a version have the bytes of this image?

use crate::advice::{By, Call};
use crate::arguments::Arguments;
use crate::disk::Disk;
use crate::json::Json;
use crate::reply::Reply;
use crate::syntax::{Argument, Command, Takes, DAY, FILE, TILL, USER, VERSION, WITH};
use crate::words::bytes;
use crate::{calendar, image, table, Failure};
use lurdempos::Right;

pub static COMMAND: Command = Command {
    name: "verify",
    arguments: &[FILE, TILL, VERSION, Argument::needed("IMAGE", Takes::File)],
    options: &[DAY, WITH, USER],
    about: "compare a version with an image",
    help: "
VERSION is a number, or the word newest; --day stands in its place, as for `restore`. IMAGE is a file, or -
for standard input. Exit status 0 means that both have the same bytes, 5 that they have not; the reply tells
the first byte that differs.
",
    run,
};

fn run(arguments: &Arguments) -> Result<Reply, Failure> {
    let (disk, user, till) = (Disk::asked(arguments)?, arguments.user()?, arguments.number(1)?);
    let file = disk.file;
    let (version, path) = (arguments.version(2)?, arguments.path(3)?);
    let given = image::read(path)?;
    let store = disk.read()?;
    let (version, kept) = Call::of_till(file, &store, By { user, till }, Right::Restore).image_of(version)?;
    let first = kept.iter().zip(&given).position(|(one, other)| one != other);
    let first = first.or((kept.len() != given.len()).then_some(kept.len().min(given.len())));
    let (path, day) = (image::name(path), table::day(&store, till, version));
    let of_day = calendar::beside(day);
    let text = match first {
        None => format!("till {till}: version {version}{of_day} and {path} are the same, {}\n", bytes(kept.len())),
        Some(at) => format!(
            "till {till}: version {version}{of_day} with {} and {path} with {} differ, first at byte {at}\n",
            bytes(kept.len()),
            image::length(&given)
        ),
    };
    let fields = Json::object([
        ("file", file.into()),
        ("till", till.into()),
        ("version", version.into()),
        ("day", day.into()),
        ("date", calendar::field(day)),
        ("bytes", kept.len().into()),
        ("image_bytes", image::whole_length(&given).map_or(Json::Null, Json::from)),
        ("same", first.is_none().into()),
        ("first_difference", first.map_or(Json::Null, Json::from)),
    ]);
    Ok(Reply::text(text, fields).with_difference(first.is_some()))
}
