//! `diff`: where two versions of a till differ.

use crate::advice::{By, Call};
use crate::arguments::Arguments;
use crate::disk::Disk;
use crate::json::Json;
use crate::reply::Reply;
use crate::syntax::{Argument, Command, Takes, FILE, TILL, USER, WITH};
use crate::words::{bytes, counted};
use crate::{image, ranges, Failure};
use lurdempos::Right;
use std::ops::Range;

pub static COMMAND: Command = Command {
    name: "diff",
    arguments: &[FILE, TILL, Argument::needed("VERSION", Takes::Version), Argument::needed("OTHER", Takes::Version)],
    options: &[WITH, USER],
    about: "show in which bytes two versions differ",
    help: "
VERSION and OTHER are numbers, or the word newest; `list` shows which day each has. Bytes are counted from 0.
Exit status 0 means that both have the same bytes, 5 that they have not.
",
    run,
};

/// Two versions, each with its number and its image.
struct Pair {
    till: u32,
    one: (u32, Vec<u8>),
    other: (u32, Vec<u8>),
    /// Where both have a byte, and another one.
    differing: Vec<Range<usize>>,
}

fn run(arguments: &Arguments) -> Result<Reply, Failure> {
    let (disk, user, till) = (Disk::asked(arguments)?, arguments.user()?, arguments.number(1)?);
    let file = disk.file;
    let (one, other) = (arguments.version(2)?, arguments.version(3)?);
    let store = disk.read()?;
    let call = Call::of_till(file, &store, By { user, till }, Right::Restore);
    let (one, other) = (call.image_of(one)?, call.image_of(other)?);
    let differing = ranges::differing(&one.1, &other.1);
    let pair = Pair { till, one, other, differing };
    let [first, second] = [&pair.one, &pair.other].map(|(version, image)| image::fields(*version, image.len()));
    let fields = Json::object([
        ("file", file.into()),
        ("till", till.into()),
        ("versions", Json::List(vec![first, second])),
        ("same", (!pair.differ()).into()),
        ("differing", ranges::fields(&pair.differing)),
    ]);
    Ok(Reply::text(pair.text(), fields).with_difference(pair.differ()))
}

impl Pair {
    fn differ(&self) -> bool {
        !self.differing.is_empty() || self.longer().is_some()
    }

    /// The version that alone has bytes at the end, and which.
    fn longer(&self) -> Option<(u32, Range<usize>)> {
        let mut lengths = [&self.one, &self.other].map(|(version, image)| (image.len(), *version));
        lengths.sort();
        let [(shorter, _), (longer, version)] = lengths;
        (shorter < longer).then_some((version, shorter..longer))
    }

    fn text(&self) -> String {
        let sum = self.differing.iter().map(|range| range.len()).sum();
        let how = match self.differing.len() {
            0 if self.longer().is_none() => format!("are the same, {}", bytes(self.one.1.len())),
            0 => "differ in length".into(),
            places => format!("differ in {}, {}", counted(places as u64, "place"), bytes(sum)),
        };
        let mut text = format!("till {}: versions {} and {} {how}\n", self.till, self.one.0, self.other.0);
        self.differing.iter().for_each(|range| text.push_str(&format!("  {}\n", ranges::shown(range))));
        if let Some((version, range)) = self.longer() {
            text.push_str(&format!("  version {version} alone has {}\n", ranges::shown(&range)));
        }
        text
    }
}
