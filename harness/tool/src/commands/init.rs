//! `init`: a new store.

use super::capacities::{self, asked, described, OPTIONS};
use crate::advice::Need;
use crate::arguments::Arguments;
use crate::json::Json;
use crate::names::shown;
use crate::patience::Patience;
use crate::reply::{warn, Reply};
use crate::syntax::{Command, FILE};
use crate::words::{bytes, counted};
use crate::{storefile, Failure};
use lurdempos::Capacities;
use std::path::Path;

/// For 16 tills, 64 versions each, of 33,268 bytes: 520 blocks.
const DEFAULTS: Capacities = Capacities::new(16, 64, 520, 4_096, 32_768);

pub static COMMAND: Command = Command {
    name: "init",
    arguments: &[FILE],
    options: &OPTIONS,
    about: "make a file with an empty store",
    help: "
FILE must not exist yet. A store keeps its capacities for good; `grow` carries it into a larger one.
Without options it has 16 tills with 64 versions each, of images of up to 33280 bytes, 4096 records and
32768 cells; its blocks and cells have 64 bytes, its segments 8 blocks, and a record that loses 20 percent of
the blocks it holds, or more, has the others copied together.
",
    run,
};

fn run(arguments: &Arguments) -> Result<Reply, Failure> {
    let file = arguments.store()?;
    let patience = Patience::asked(arguments)?;
    let capacities = asked(arguments, DEFAULTS)?;
    let store = capacities::empty_store(arguments, capacities)?;
    storefile::create(file, store, &patience, None)?;
    warn_if_small(file, capacities);
    let fields = Json::object([("file", file.into()), ("capacities", capacities::fields(capacities))]);
    Ok(Reply::done(format!("{}: an empty store, {}\n", shown(file), described(capacities)), fields))
}

/// A store that cannot hold a single full image is seldom what somebody wants.
fn warn_if_small(file: &Path, capacities: Capacities) {
    let need = Need::of_longest(capacities);
    if need.cells > capacities.cells as usize || need.records > capacities.records as usize {
        warn(&format!(
            "{}: not even one image of {} with different blocks fits: it takes {} and {}",
            shown(file),
            bytes(capacities.image_bytes()),
            counted(need.records as u64, "record"),
            counted(need.cells as u64, "cell")
        ));
    }
}
