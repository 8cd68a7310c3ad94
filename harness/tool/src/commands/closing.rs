//! `closing`: images of several tills in one call and one write.

use super::dry_run::{tried, Cells};
use crate::advice::{self, By, Call};
use crate::arguments::Arguments;
use crate::day::{self, Sent};
use crate::disk::Disk;
use crate::json::Json;
use crate::names::shown;
use crate::patience::Patience;
use crate::reply::{warn, Reply};
use crate::store::Store;
use crate::storefile::Change;
use crate::syntax::{Argument, Command, Opt, Takes, DRY_RUN, FILE, LIMIT, USER, WAIT, WITH};
use crate::{image, Failure};
use lurdempos::{Refusal, Right};
use std::path::Path;

pub static COMMAND: Command = Command {
    name: "closing",
    arguments: &[FILE, Argument::repeated("TILL=IMAGE", Takes::TillAndFile)],
    options: &[
        Opt::with_folder("--folder", "DAY", "in TILL=IMAGE's place: keep the images in a folder"),
        DRY_RUN,
        WITH,
        LIMIT,
        USER,
        WAIT,
    ],
    about: "keep the images of several tills in one write",
    help: "
Each TILL=IMAGE is a till's number and a file with its memory; one of the files can be - for standard input.
Up to 16 images are kept in the order given, each as `backup` keeps one, and a till can have several. In a
folder DAY every file is an image, and its name up to the first dot is the till's number, as in 3 or 3.img;
they are kept in the order of the tills. Anything else in it is wrong use, so that no till is left out because
of a misspelt name.

An image that is refused does not stop the others: these are kept. The reply tells what became of each, and
the exit status is 1 if one was refused. Send that one again by itself. With --limit each image is held against
it by itself, with the cells that are occupied then.

No day can be given: each version takes that of its till's newest one, or 0, which is no day, if the till
holds none.

There is no --rotate: a version that made room would be gone even if the image is then refused for another
reason. Make room with `lurdempos retire FILE TILL --keep N` first.
",
    run,
};

/// A closing that is asked for.
struct Asked<'a> {
    file: &'a Path,
    user: u32,
    /// How many images there are; of too many not all are read.
    count: usize,
    images: &'a [Sent],
}

/// What became of an image: its version, or why it has none.
type Outcome = Result<u32, (Refusal, Failure)>;

fn run(arguments: &Arguments) -> Result<Reply, Failure> {
    let (disk, user, named) = (Disk::asked(arguments)?, arguments.user()?, day::named(arguments)?);
    let patience = Patience::asked(arguments)?;
    let targets = disk.targets()?;
    let count = named.len();
    // Before the lock is taken: standard input may come slowly.
    let images = day::read(named)?;
    let asked = Asked { file: disk.file, user, count, images: &images };
    if arguments.has("--dry-run") {
        let (outcomes, cells) = tried(&disk, user, |store| asked.keep(store))?;
        return Ok(asked.reply(&outcomes, Some(&cells)));
    }
    let mut change = Change::begin(&disk, &targets, &patience)?;
    let outcomes = asked.keep(&mut change.store)?;
    if outcomes.iter().any(Result::is_ok) {
        change.finish()?;
    }
    Ok(asked.reply(&outcomes, None))
}

impl Asked<'_> {
    fn keep(&self, store: &mut Store) -> Result<Vec<Outcome>, Failure> {
        let images: Vec<(u32, &[u8])> = self.images.iter().map(|sent| (sent.till, &sent.image[..])).collect();
        let each = store.backup_all(self.user, &images).map_err(|refusal| match refusal {
            Refusal::ImageLength => advice::too_many_images(self.count),
            _ => self.call(store, 0).refused(refusal),
        })?;
        let outcome = |(answer, &(till, image)): (Result<u32, Refusal>, &(u32, &[u8]))| {
            let call = Call { image, ..self.call(store, till) };
            answer.map_err(|refusal| (refusal, call.refused(refusal)))
        };
        Ok(each.into_iter().zip(&images).map(outcome).collect())
    }

    /// The backup of one image.
    fn call<'a>(&'a self, store: &'a Store, till: u32) -> Call<'a> {
        Call::of_till(self.file, store, By { user: self.user, till }, Right::BackUp)
    }

    /// In words and for programs; with cells if it was only tried. What is refused is told in full on standard error.
    fn reply(&self, outcomes: &[Outcome], cells: Option<&Cells>) -> Reply {
        let would = if cells.is_some() { "would be " } else { "" };
        let kept = outcomes.iter().filter(|outcome| outcome.is_ok()).count();
        let mut text = String::new();
        for (Sent { till, path, image }, outcome) in self.images.iter().zip(outcomes) {
            match outcome {
                Ok(version) => {
                    text += &format!("till {till}: version {version} {would}kept, {}\n", image::length(image))
                }
                Err((refusal, failure)) => {
                    warn(&format!("till {till}, {}: {}", image::name(path), failure.words()));
                    text += &format!("till {till}: {would}{refusal}\n");
                }
            }
        }
        if kept < outcomes.len() {
            self.warn_of_others(kept, cells.is_some());
        }
        text += &cells.map_or(String::new(), |cells| format!("{cells}\n"));
        let fields = Json::object([
            ("file", self.file.into()),
            ("images", Json::list(self.images.iter().zip(outcomes), fields)),
            ("kept", kept.into()),
            ("dry_run", cells.is_some().into()),
            ("cells", cells.map_or(Json::Null, Cells::fields)),
        ]);
        Reply::done(text, fields).with_refusals(kept < outcomes.len())
    }

    /// Whoever makes the whole closing again would keep those twice that are kept.
    fn warn_of_others(&self, kept: usize, tried: bool) {
        let (file, count) = (shown(self.file), self.count);
        match (kept, tried) {
            (_, true) => warn(&format!("{file}: {kept} of {count} images would be kept")),
            (0, _) => warn(&format!("{file}: no image is kept; nothing was altered")),
            _ => warn(&format!(
                "{file}: {kept} of {count} images are kept\n\
                 What to do: send the others again by themselves; the whole closing again would keep these twice."
            )),
        }
    }
}

/// An image for programs.
fn fields((sent, outcome): (&Sent, &Outcome)) -> Json {
    let refusal = outcome.as_ref().err().map(|(refusal, _)| refusal.number());
    Json::object([
        ("till", sent.till.into()),
        ("image", sent.path.as_path().into()),
        ("bytes", image::whole_length(&sent.image).map_or(Json::Null, Json::from)),
        ("version", outcome.as_ref().map_or(Json::Null, |&version| version.into())),
        ("refusal", refusal.map_or(Json::Null, Json::from)),
    ])
}
