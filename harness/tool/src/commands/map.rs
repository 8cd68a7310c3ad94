//! `map`: a picture of the store.

use crate::arguments::Arguments;
use crate::json::Json;
use crate::names::shown;
use crate::output::{self, Output};
use crate::patience::Patience;
use crate::picture::{self, is_free, is_whole, Drawing};
use crate::reply::Reply;
use crate::shared::{self, count, Use};
use crate::streams::Stream;
use crate::syntax::{Command, Opt, FILE, FORCE, WAIT};
use crate::{storefile, table, Failure};
use std::path::Path;

pub static COMMAND: Command = Command {
    name: "map",
    arguments: &[FILE],
    options: &[Opt::with_file("--output", "F", "write the picture to the file F, not to standard output"), FORCE, WAIT],
    about: "draw the cells and records as an SVG picture",
    help: "
Each cell, and each position of a record beside it, has a colour: free, shared by several tills, or of one till,
hatched if only one version needs it. Below stands the longest chain of each version.
With --json the numbers of the picture are printed in its place.
",
    run,
};

fn run(arguments: &Arguments) -> Result<Reply, Failure> {
    let file = arguments.store()?;
    let patience = Patience::asked(arguments)?;
    let to = arguments.value("--output").map(Path::new);
    if to == Some(Path::new("")) {
        return Err(arguments.wrong("option --output needs a file"));
    }
    let stream = to.map_or(Some(Stream::OUT), Stream::named);
    if arguments.has("--json") && stream.is_some_and(|stream| stream != Stream::OUT) {
        return Err(
            arguments.wrong("--json answers in the place of a picture that goes to a stream; name a file for it")
        );
    }
    if let Some(to) = to {
        output::apart(file, "the store itself", to)?;
    }
    let store = storefile::read(file)?;
    let (tills, records) = (table::tills(&store), table::records(&store));
    let uses = shared::uses(store.capacities().cells as usize, &tills);
    let name = file.file_name().unwrap_or(file.as_os_str()).to_string_lossy();
    let drawing = Drawing { name: &name, uses: &uses, records: &records, tills: &tills };
    let (picture, fields) = (picture::draw(&drawing), fields(file, to, &drawing));
    match (stream, to) {
        (Some(Stream::OUT), _) => Ok(Reply::document(picture, fields)),
        (Some(stream), _) => Ok(Reply::data(stream, picture.into_bytes())),
        (None, to) => {
            let path = to.unwrap_or(Path::new(""));
            Output { path, force: arguments.has("--force"), mode: None, patience }.put(picture.as_bytes())?;
            Ok(Reply::done(format!("{}: drawn to {}\n", shown(file), shown(path)), fields))
        }
    }
}

/// The picture's numbers.
fn fields(file: &Path, to: Option<&Path>, drawing: &Drawing) -> Json {
    let Drawing { uses, records, tills, .. } = drawing;
    let number = |kind: Use| Json::from(count(uses, kind));
    let held = (0..tills.len()).filter(|&till| !tills[till].is_empty());
    let till = |till: usize| {
        Json::object([
            ("till", till.into()),
            ("one_version", number(Use::Single(till))),
            ("several_versions", number(Use::Versions(till))),
        ])
    };
    let in_use = records.iter().filter(|record| !is_free(record)).count();
    let whole = records.iter().filter(|record| is_whole(record)).count();
    Json::object([
        ("file", file.into()),
        ("output", to.map_or(Json::Null, Json::from)),
        ("cells", uses.len().into()),
        ("free", number(Use::Free)),
        ("several_tills", number(Use::Tills)),
        ("tills", Json::list(held, till)),
        ("records", Json::object([("of", records.len().into()), ("in_use", in_use.into()), ("whole", whole.into())])),
    ])
}
