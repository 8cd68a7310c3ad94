//! `bill`: what each till's share of the storage costs.

use super::tally;
use crate::arguments::Arguments;
use crate::disk::Disk;
use crate::json::Json;
use crate::reply::Reply;
use crate::store::Store;
use crate::syntax::{Command, Opt, FILE, USER, WITH};
use crate::words::{cents, counted};
use crate::{advice, Failure};
use lurdempos::{Bill, Refusal};
use std::path::Path;

const PRICE: Opt = Opt::with("--price", "P", "the price of a cell in tenths of a cent, 0 to 10000; has to be given");

pub static COMMAND: Command = Command {
    name: "bill",
    arguments: &[FILE],
    options: &[PRICE, WITH, USER],
    about: "show what each till's share of the storage costs",
    help: "
At --price P for each occupied cell, in tenths of a cent: 25 is 2.5 cents. The price of a cell is divided among
the tills of which a version held has a block that lies there for it (direct, as `list` shows it): to each the
same whole number of tenths, and the tenths left over one each to the tills with the lowest numbers among these.
So nothing is lost, and nothing is billed twice: the total is the price of all cells of the tally, which is asked
for and compared; the exit status is 5 if they differ. The bill is the owner's: other users are refused.
",
    run,
};

/// A bill, with what it is made from.
struct Billed {
    price: u32,
    /// Occupied cells, by the tally.
    cells: u32,
    /// The sum of each of the store's tills.
    sums: Vec<u32>,
    total: u32,
}

fn run(arguments: &Arguments) -> Result<Reply, Failure> {
    let (disk, user) = (Disk::asked(arguments)?, arguments.user()?);
    let file = disk.file;
    let price = arguments.option_number(PRICE.name)?.ok_or_else(|| arguments.missing(PRICE.name))?;
    let store = disk.read()?;
    let billed = billed(file, &store, user, price)?;
    let reply = Reply::text(text(&billed), fields(file, &billed));
    Ok(reply.with_difference(!billed.agrees()))
}

fn billed(file: &Path, store: &Store, user: u32, price: u32) -> Result<Billed, Failure> {
    let bill: Bill = store.bill(user, price).map_err(|refusal| match refusal {
        Refusal::HighPrice => advice::high_price(price),
        _ => advice::of_the_owner(refusal, file, user),
    })?;
    let cells = tally::asked(file, store, user)?.cells;
    let sums = bill.sums[..store.capacities().tills as usize].to_vec();
    Ok(Billed { price, cells, sums, total: bill.total() })
}

impl Billed {
    /// What all cells of the tally cost.
    fn expected(&self) -> u32 {
        self.price * self.cells
    }

    fn agrees(&self) -> bool {
        self.total == self.expected()
    }
}

fn text(billed: &Billed) -> String {
    let row = |name: &str, tenths: u32| format!("{name:>4}  {:>14}\n", cents(tenths));
    let tills: String = (0..).zip(&billed.sums).map(|(till, &sum): (u32, _)| row(&till.to_string(), sum)).collect();
    let made = format!("{} at {} cents", counted(billed.cells, "cell"), cents(billed.price));
    let checked = match billed.agrees() {
        true => format!("the total is that of the tally: {made}"),
        false => format!("the total is NOT that of the tally: {made} are {} cents", cents(billed.expected())),
    };
    format!("till           cents\n{tills}{}{checked}\n", row("all", billed.total))
}

fn fields(file: &Path, billed: &Billed) -> Json {
    let till = |(till, &sum): (u32, &u32)| Json::object([("till", till.into()), ("tenths", sum.into())]);
    Json::object([
        ("file", file.into()),
        ("price", billed.price.into()),
        ("tills", Json::list((0..).zip(&billed.sums), till)),
        ("total", billed.total.into()),
        ("cells", billed.cells.into()),
        ("agrees", billed.agrees().into()),
    ])
}

#[cfg(test)]
mod tests {
    use super::{fields, text, Billed};
    use std::path::Path;

    /// No store bills so; if one ever did, it would be told.
    #[test]
    fn a_total_that_differs() {
        let billed = Billed { price: 25, cells: 3, sums: vec![50, 24], total: 74 };
        let told = "the total is NOT that of the tally: 3 cells at 2.5 cents are 7.5 cents\n";
        assert!(!billed.agrees() && text(&billed).ends_with(told));
        assert!(fields(Path::new("s"), &billed).to_string().ends_with("\"agrees\": false}"));
    }
}
