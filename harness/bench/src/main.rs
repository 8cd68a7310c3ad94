//! Time and space of the proved store. Every call is timed beside the twin and beside one plain read pass over pool and
//! table, in one run on the same buffers, and the best of several is shown.
//!
//! `bench [ROUNDS] [--write]`: with `--write` the run is put into docs/PERFORMANCE.md too.
//! `bench --backups [--write]`: the same for the tool's backups.
//! `bench --chain [ROUNDS]`: only the calls on a chain.
//! `bench --erased`: only what chips that erase to 255 take.
//! `bench --line [--write]`: only what a till puts on the line, with the picture.

mod backups;
mod cases;
mod chain;
mod erased;
mod line;
mod picture;
mod space;
mod timing;

use std::path::{Path, PathBuf};
use std::{env, fs, io};

/// What stands before a run in docs/PERFORMANCE.md, and after it.
const STORE_FROM: &str = "<!-- the latest run -->\n";
const BACKUPS_FROM: &str = "<!-- the latest run of backups -->\n";
const LINE_FROM: &str = "<!-- the line -->\n";
const TO: &str = "<!-- its end -->\n";

fn main() -> io::Result<()> {
    if backups::as_the_tool()? {
        return Ok(());
    }
    let words: Vec<String> = env::args().skip(1).collect();
    let has = |option: &str| words.iter().any(|word| word == option);
    let rounds = words.iter().find_map(|word| word.parse().ok()).unwrap_or(25);
    if has("--erased") {
        print!("{}", erased::report());
        return Ok(());
    }
    if has("--chain") {
        chain::time_all(rounds).iter().for_each(|line| println!("{line}"));
        return Ok(());
    }
    let (report, from) = if has("--backups") {
        (backups::report()?, BACKUPS_FROM)
    } else if has("--line") {
        let closings = line::closings();
        fs::write(docs("line.svg"), line::svg(&closings))?;
        (line::table(&closings), LINE_FROM)
    } else {
        let days = space::days();
        fs::write(docs("space.svg"), space::svg(&days))?;
        let space = format!("## Space\n\n{}\n### Erased memory\n\n{}", space::table(&days), erased::report());
        (format!("{}\n{space}", time_report(rounds)), STORE_FROM)
    };
    print!("{report}");
    if has("--write") {
        write(&report, from)
    } else {
        Ok(())
    }
}

fn docs(name: &str) -> PathBuf {
    Path::new(env!("CARGO_MANIFEST_DIR")).join("../../docs").join(name)
}

fn time_report(rounds: usize) -> String {
    let mut text = format!("## Time\n\nBest of {rounds}, microseconds.\n\n");
    text += "| store | call | proved | twin | ratio | passes | at most |\n|---|---|---:|---:|---:|---:|---|\n";
    let (mut stores, mut over) = (Vec::new(), Vec::new());
    let mut add = |name: String, lines: Vec<timing::Line>| {
        stores.push(name);
        lines.iter().for_each(|line| text += &format!("{line}\n"));
        over.extend(lines.iter().flat_map(|line| line.misses()));
    };
    for cases in cases::all() {
        add(cases[0].store.to_string(), timing::time_all(cases, rounds));
    }
    add(chain::described(), chain::time_all(rounds));
    text += &format!("\nThe stores: {}.\n", stores.join("; "));
    match over.as_slice() {
        [] => text + "\nAll targets are met.\n",
        _ => text + "\nMissed:\n\n" + &over.join("\n") + "\n",
    }
}

/// Puts the run in the place of the last one.
fn write(report: &str, from: &str) -> io::Result<()> {
    let page = fs::read_to_string(docs("PERFORMANCE.md"))?;
    let parts = page.split_once(from).and_then(|(before, rest)| Some((before, rest.split_once(TO)?.1)));
    let (before, after) = parts.ok_or_else(|| io::Error::other("docs/PERFORMANCE.md has no place for the run"))?;
    fs::write(docs("PERFORMANCE.md"), format!("{before}{from}\n{report}\n{TO}{after}"))
}
