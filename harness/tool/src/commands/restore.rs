//! `restore`: the image of a version.

use crate::advice::{By, Call};
use crate::arguments::Arguments;
use crate::disk::Disk;
use crate::json::Json;
use crate::names::shown;
use crate::outlet::Outlet;
use crate::reply::Reply;
use crate::storefile::Opened;
use crate::syntax::{Argument, Command, Takes, DAY, FILE, FORCE, TILL, USER, VERSION, WAIT, WITH};
use crate::words::bytes;
use crate::{calendar, table, Failure};
use lurdempos::Right;

pub static COMMAND: Command = Command {
    name: "restore",
    arguments: &[FILE, TILL, VERSION, Argument::needed("OUTPUT", Takes::File)],
    options: &[DAY, FORCE, WITH, USER, WAIT],
    about: "write a version's image to a file",
    help: "
VERSION is a number, or the word newest. OUTPUT is a file, or - for standard output. A file that exists is
replaced as a whole; nobody ever sees half of it. The reply tells the image's bytes and the longest
chain: the most versions that had to be gone through for a block.

  lurdempos restore a.lur 0 --day 2026-03-31 evening.img

writes what the till had on that day: the newest version that is not after it. D is a number up to
4294967295, or a date: the days since 1970-01-01.
",
    run,
};

fn run(arguments: &Arguments) -> Result<Reply, Failure> {
    let (disk, user, till) = (Disk::asked(arguments)?, arguments.user()?, arguments.number(1)?);
    let file = disk.file;
    let (version, outlet) = (arguments.version(2)?, Outlet::asked(arguments, 3, "an image")?);
    let Opened { store, metadata, .. } = disk.open()?;
    let call = Call::of_till(file, &store, By { user, till }, Right::Restore);
    let version = call.number(version)?;
    let mut image = vec![0; store.capacities().image_bytes()];
    let restored = store.restore(user, till, version, &mut image);
    let restored = restored.map_err(|refusal| Call { version, ..call }.refused(refusal))?;
    image.truncate(restored.length as usize);
    let (to, length, chain) = (shown(outlet.path), bytes(image.len()), restored.hops);
    let day = table::day(&store, till, version);
    let of_day = calendar::beside(day);
    let text = format!("till {till}: version {version}{of_day} restored to {to}, {length}, longest chain {chain}\n");
    let fields = Json::object([
        ("file", file.into()),
        ("till", till.into()),
        ("version", version.into()),
        ("day", day.into()),
        ("date", calendar::field(day)),
        ("output", outlet.path.into()),
        ("bytes", restored.length.into()),
        ("chain", chain.into()),
    ]);
    outlet.put(image, &metadata, Reply::done(text, fields))
}
