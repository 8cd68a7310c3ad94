//! `salvage`: what can still be traced in a damaged file.

use crate::arguments::Arguments;
use crate::folder::NewFolder;
use crate::form::damage_in_words;
use crate::json::Json;
use crate::names::shown;
use crate::reply::Reply;
use crate::salvage::{Found, Verdict, Wreck};
use crate::syntax::{Argument, Command, Takes, FILE};
use crate::words::{bytes, counted};
use crate::{calendar, image, ranges, storefile, Failure};
use std::collections::HashSet;
use std::os::unix::fs::MetadataExt;
use std::path::Path;

pub static COMMAND: Command = Command {
    name: "salvage",
    arguments: &[FILE, Argument::needed("FOLDER", Takes::Folder)],
    options: &[],
    about: "write out what a damaged store still has",
    help: "
Best effort, and not covered by the proof: for a file that no other command reads. Every version that can be
traced is written to FOLDER, which must not exist yet, with a report of what is certain: a version is certain if
every byte on the way to it lies in a piece of the file whose checksum holds. Others have a word in their
name, doubtful, incomplete or, in a file without checksums, unchecked. FILE is never altered.
Exit status 0 means that all versions are there and certain, 5 that one is not, or may be lost.
",
    run,
};

const VERDICTS: [Verdict; 4] = [Verdict::Certain, Verdict::Unchecked, Verdict::Doubtful, Verdict::Incomplete];

fn run(arguments: &Arguments) -> Result<Reply, Failure> {
    let (file, path) = (arguments.store()?, arguments.place(1)?);
    let (content, metadata) = storefile::read_bytes(file)?;
    let Some(wreck) = Wreck::of(&content) else {
        let words = format!("{}: nothing can be traced in it: it does not tell the store's capacities", shown(file));
        return Err(Failure::file(words).advising("fetch a copy of the file."));
    };
    let versions = wreck.versions();
    let named = with_names(&versions);
    let report = report(file, &wreck, &named);
    let folder = NewFolder::begin(path, metadata.mode())?;
    for (name, found) in &named {
        folder.put(name, &found.image)?;
    }
    folder.put("report.txt", report.as_bytes())?;
    folder.finish()?;
    let fields = Json::object([
        ("file", file.into()),
        ("folder", path.into()),
        ("proved", false.into()),
        ("damage", wreck.damaged.as_deref().map_or(Json::Null, ranges::fields)),
        ("versions", Json::list(&named, fields)),
        ("tills_in_doubt", Json::list(wreck.tills_in_doubt(), Json::from)),
    ]);
    let certain = wreck.damaged.is_some()
        && wreck.tills_in_doubt().is_empty()
        && versions.iter().all(|found| found.verdict == Verdict::Certain);
    Ok(Reply::done(report, fields).with_difference(!certain))
}

/// Each with the name of its image. A number that comes twice or cannot be is not used.
fn with_names(versions: &[Found]) -> Vec<(String, &Found)> {
    let mut taken = HashSet::new();
    let name = |found: &Found| {
        let number = found.number.filter(|&number| taken.insert((found.till, number)));
        let name = match number {
            Some(number) => image::file_name(found.till, number),
            None => format!("till-{}-slot-{}.img", found.till, found.slot),
        };
        match found.verdict {
            Verdict::Certain => name,
            verdict => name.replace(".img", &format!(".{}.img", verdict.word())),
        }
    };
    versions.iter().map(name).zip(versions).collect()
}

fn report(file: &Path, wreck: &Wreck, named: &[(String, &Found)]) -> String {
    let file = shown(file);
    let damage = match &wreck.damaged {
        Some(damaged) => damage_in_words(damaged),
        None => "it has no checksums, so that nothing in it is certain".into(),
    };
    let mut text = format!("{file}: salvaged as far as it can be traced; the proof does not cover this\n");
    text.push_str(&format!("{file}: {damage}\n"));
    named.iter().for_each(|(name, found)| text.push_str(&format!("{name}: {}\n", in_words(found))));
    for till in wreck.tills_in_doubt() {
        text.push_str(&format!("till {till}: further versions of it may be lost\n"));
    }
    let count = |verdict: Verdict| named.iter().filter(|(_, found)| found.verdict == verdict).count();
    let counts: Vec<String> = VERDICTS
        .into_iter()
        .filter(|&verdict| count(verdict) > 0)
        .map(|verdict| format!("{} {}", count(verdict), verdict.word()))
        .collect();
    let colon = if counts.is_empty() { "" } else { ": " };
    text.push_str(&format!("{}{colon}{}\n", counted(named.len() as u64, "version"), counts.join(", ")));
    text
}

fn in_words(found: &Found) -> String {
    let day = found.day.map(calendar::beside).unwrap_or_default();
    let mut words = format!("{}{day}, {}", bytes(found.image.len()), found.verdict.word());
    if !found.named {
        words.push_str("; its number or length may be another");
    }
    for (what, ranges) in [("may be wrong", &found.doubtful), ("could not be traced and are zeros", &found.missing)] {
        if !ranges.is_empty() {
            words.push_str(&format!("; {} {what}", ranges::all_shown(ranges)));
        }
    }
    words
}

fn fields((name, found): &(String, &Found)) -> Json {
    Json::object([
        ("till", found.till.into()),
        ("version", found.number.map_or(Json::Null, Json::from)),
        ("day", found.day.map_or(Json::Null, Json::from)),
        ("date", found.day.map_or(Json::Null, calendar::field)),
        ("bytes", found.image.len().into()),
        ("verdict", found.verdict.word().into()),
        ("image", name.as_str().into()),
        ("named", found.named.into()),
        ("doubtful", ranges::fields(&found.doubtful)),
        ("missing", ranges::fields(&found.missing)),
    ])
}
