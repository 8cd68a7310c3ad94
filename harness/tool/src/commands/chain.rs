//! `chain`: what each store on a disk has in use, and all together.

use crate::arguments::Arguments;
use crate::json::Json;
use crate::names::shown;
use crate::reply::Reply;
use crate::store::{self, Store};
use crate::syntax::{Argument, Command, Takes, USER};
use crate::{advice, disk, storefile, Failure};
use lurdempos::{Capacities, Tally};
use std::path::Path;

pub static COMMAND: Command = Command {
    name: "chain",
    arguments: &[Argument::several("FILE", Takes::File)],
    options: &[USER],
    about: "show the space that several stores on a disk have in use",
    help: "
Each FILE is a store, and a disk has one to eight of them. For each: occupied cells and records in use, each of
how many there are; the last row is the sum. The cells that all occupy are what `backup --limit` is held
against, with one of the stores as FILE and the others after --with. The tally is the owner's: other users are
refused.
",
    run,
};

/// What is in use, and of how many.
#[derive(Clone, Copy, Default)]
struct Row {
    cells: [u32; 2],
    records: [u32; 2],
}

fn run(arguments: &Arguments) -> Result<Reply, Failure> {
    let (files, user) = (arguments.stores()?, arguments.user()?);
    disk::refuse_wrong(arguments, &files)?;
    let stores: Vec<Store> = files.iter().map(|file| storefile::read(file)).collect::<Result<_, _>>()?;
    let capacities: Vec<Capacities> = stores.iter().map(Store::capacities).collect();
    let chain = store::chain(stores);
    let mut rows = Vec::new();
    for (number, (file, capacities)) in (0..).zip(files.into_iter().zip(capacities)) {
        let tally = chain.tally(number, user).map_err(|refusal| advice::of_the_owner(refusal, file, user))?;
        rows.push((file, Row::of(tally, capacities)));
    }
    let all = rows.iter().fold(Row::default(), |sum, (_, row)| sum.and(row));
    Ok(Reply::text(text(&rows, all), fields(&rows, all)))
}

impl Row {
    fn of(tally: Tally, capacities: Capacities) -> Row {
        Row { cells: [tally.cells, capacities.cells], records: [tally.records, capacities.records] }
    }

    fn and(self, other: &Row) -> Row {
        let sum = |[used, of]: [u32; 2], other: [u32; 2]| [used + other[0], of + other[1]];
        Row { cells: sum(self.cells, other.cells), records: sum(self.records, other.records) }
    }

    fn text(self, name: &str) -> String {
        let Row { cells: [cells, of_cells], records: [records, of_records] } = self;
        format!("{cells:>7}  {of_cells:>7}  {records:>7}  {of_records:>7}  {name}\n")
    }

    fn fields(self) -> [(&'static str, Json); 2] {
        let pair = |used: &'static str, pair: [u32; 2]| Json::object([(used, pair[0].into()), ("of", pair[1].into())]);
        [("cells", pair("occupied", self.cells)), ("records", pair("in_use", self.records))]
    }
}

fn text(rows: &[(&Path, Row)], all: Row) -> String {
    let stores: String = rows.iter().map(|(file, row)| row.text(&shown(file))).collect();
    format!("  cells       of  records       of  store\n{stores}{}", all.text("all"))
}

fn fields(rows: &[(&Path, Row)], all: Row) -> Json {
    let store = |(file, row): &(&Path, Row)| {
        let [cells, records] = row.fields();
        Json::object([("file", (*file).into()), cells, records])
    };
    let [cells, records] = all.fields();
    Json::object([("stores", Json::list(rows, store)), cells, records])
}
