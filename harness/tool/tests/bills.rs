//! What each till's share of the storage costs.

mod common;
use common::{letters, refused, Bench};

/// A store in which two tills share eight cells, and till 0 has one more.
fn shop(name: &str) -> Bench {
    let bench = Bench::with_store(name);
    bench.fed("backup s 0 -", &letters("ABCDEFGHI")).accepted();
    bench.fed("backup s 1 -", &letters("ABCDEFGH")).accepted();
    bench
}

#[test]
fn in_cents() {
    let bench = shop("bill");
    let before = bench.read("s");
    let told = "till           cents\n   0            12.9\n   1             9.6\n all            22.5\n\
                the total is that of the tally: 9 cells at 2.5 cents\n";
    assert_eq!(bench.run("bill s --price 25").accepted().out, told);
    assert_eq!(bench.run("bill --price=25 s --user 0").accepted().out, told);
    let dear = bench.run("bill s --price 10000");
    dear.accepted().says("   0         5,000.0\n   1         4,000.0\n all         9,000.0\n");
    bench.run("bill s --price 0").accepted().says(" all             0.0\n").says("9 cells at 0.0 cents\n");
    assert_eq!(bench.run("bill s --price 25 --quiet").accepted().out, "");
    assert_eq!((bench.read("s"), bench.names()), (before, vec!["s".to_string()]));
}

#[test]
fn for_programs() {
    let bench = shop("bill-json");
    let told = "{\"file\": \"s\", \"price\": 3, \"tills\": [\n  {\"till\": 0, \"tenths\": 19},\n  \
                {\"till\": 1, \"tenths\": 8}], \"total\": 27, \"cells\": 9, \"agrees\": true}\n";
    assert_eq!(bench.run("bill s --price 3 --json").accepted().out, told);
}

/// A till whose version is retired pays no longer.
#[test]
fn from_day_to_day() {
    let bench = shop("bill-days");
    bench.run("retire s 0 1").accepted();
    bench.run("bill s --price 25").accepted().says("   0             0.0\n   1            20.0\n").says("8 cells");
    bench.run("retire s 1 1").accepted();
    bench.run("bill s --price 25").accepted().says("   1             0.0\n all             0.0\n").says("0 cells");
}

#[test]
fn refusals() {
    let bench = shop("bill-refused");
    let words = ["refused, 30: a price above 10,000", "--price 10001 is 1,000.1 cents for a cell"];
    refused(&bench, "bill s --price 10001", 30, &words);
    refused(&bench, "bill s --price 4294967295", 30, &["at most 10000 tenths of a cent"]);
    refused(&bench, "bill s --price 10001 --user 3", 23, &["this is for the owner, user 0, and not for user 3"]);
    refused(&bench, "bill s --price 10001 --user 9", 22, &["there is no user 9"]);
}
