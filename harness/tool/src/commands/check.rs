//! `check`: is the file a sound store?

use super::capacities::{self, described};
use crate::arguments::Arguments;
use crate::json::Json;
use crate::names::shown;
use crate::reply::Reply;
use crate::syntax::{Command, FILE};
use crate::{storefile, Failure};

pub static COMMAND: Command = Command {
    name: "check",
    arguments: &[FILE],
    options: &[],
    about: "see whether the file is a sound store",
    help: "
The whole file is read, its checksums are tested and every rule of a sound store is checked. Exit status 0
means sound, 1 that it has the form of a store but is not sound (10), 3 that it is damaged, not a store's
file, or cannot be read.
",
    run,
};

fn run(arguments: &Arguments) -> Result<Reply, Failure> {
    let file = arguments.store()?;
    let opened = storefile::open(file)?;
    let capacities = opened.store.capacities();
    let sums = if opened.has_sums { "" } else { "; without checksums until its next change" };
    let text = format!("{}: sound, {}{sums}\n", shown(file), described(capacities));
    let fields = Json::object([
        ("file", file.into()),
        ("sound", true.into()),
        ("checksums", opened.has_sums.into()),
        ("capacities", capacities::fields(capacities)),
    ]);
    Ok(Reply::text(text, fields))
}
