//! `demo`: a bakery's week, played with the real commands in a temporary store.

use super::tally;
use crate::arguments::Arguments;
use crate::bakery::{self, Till, LENGTH};
use crate::json::Json;
use crate::reply::Reply;
use crate::syntax::Command;
use crate::words::grouped;
use crate::{leftovers, memory, storefile, table, Failure};
use lurdempos::BASE;
use std::ffi::OsString;
use std::fs;
use std::os::unix::fs::DirBuilderExt;
use std::path::{Path, PathBuf};

pub static COMMAND: Command = Command {
    name: "demo",
    arguments: &[],
    options: &[],
    about: "play a bakery's week in a temporary store",
    help: "
The store is made in the folder for temporary files and removed at the end.
",
    run,
};

const STORE: &str = "bakery.lur";
const DAYS: [&str; 6] = ["Monday", "Tuesday", "Wednesday", "Thursday", "Friday", "Saturday"];

fn run(_: &Arguments) -> Result<Reply, Failure> {
    memory::played();
    let _folder = Folder::enter()?;
    let tills = ["counter", "cafe", "van"].map(|name| (name, Till::new(name)));
    let mut play = Play { text: String::new(), tills, days: Vec::new() };
    play.monday()?;
    play.week()?;
    play.look()?;
    play.old_version()?;
    play.retire()?;
    play.say("\nThe temporary store is removed again. `lurdempos --help` shows all commands.");
    Ok(Reply::text(play.text, Json::object([("days", Json::List(play.days))])))
}

/// The words of the play so far, the tills with the names of their images, and the evenings' numbers for programs.
struct Play {
    text: String,
    tills: [(&'static str, Till); 3],
    days: Vec<Json>,
}

impl Play {
    fn say(&mut self, words: &str) {
        self.text.push_str(words);
        self.text.push('\n');
    }

    /// Runs a command line and shows it with its reply.
    fn shell(&mut self, line: &str) -> Result<(), Failure> {
        self.say(&format!("$ lurdempos {line}"));
        let reply = match command(line) {
            Ok(reply) => reply,
            Err(failure) if failure.is_refusal() => format!("lurdempos: {}\n", failure.words()),
            Err(failure) => return Err(failure),
        };
        self.text.push_str(&reply);
        Ok(())
    }

    fn monday(&mut self) -> Result<(), Failure> {
        self.say("A bakery has three tills. Every evening each of them sends its whole memory, 33,268 bytes:");
        self.say("firmware that all share, settings of its own, counters, and the journal of its sales.\n");
        self.shell(&format!("init {STORE} --tills 3 --versions 8 --records 512 --cells 4096"))?;
        self.say("\nMonday evening, the first till; the others go the same way:");
        self.close(DAYS[0])?;
        self.shell(&format!("backup {STORE} 0 {}.img", self.tills[0].0))?;
        for till in 1..self.tills.len() {
            command(&format!("backup {STORE} {till} {}.img", self.tills[till].0))?;
        }
        keep("monday.img", &read("counter.img")?)
    }

    /// The other evenings, with what the images would take whole and what they take in cells.
    fn week(&mut self) -> Result<(), Failure> {
        let cell = BASE[0];
        self.say(&format!("\nThe week, and what has to be kept: as whole images, and in cells of {cell} bytes:"));
        self.say("              versions   whole, bytes   cells   cells, bytes");
        self.measured(DAYS[0])?;
        for day in &DAYS[1..] {
            self.close(day)?;
            for till in 0..self.tills.len() {
                command(&format!("backup {STORE} {till} {}.img", self.tills[till].0))?;
            }
            self.measured(day)?;
        }
        let file = grouped(read(STORE)?.len());
        let room = "room for all its cells, the table and the checksums";
        self.say(&format!("The file has {file} bytes from the first day on: {room}."));
        Ok(())
    }

    fn measured(&mut self, day: &str) -> Result<(), Failure> {
        let store = storefile::read(Path::new(STORE))?;
        let cells = tally::of(Path::new(STORE), &store)?.cells as usize;
        let versions: usize = table::tills(&store).iter().map(Vec::len).sum();
        let cell_bytes = cells * store.capacities().block_bytes as usize;
        let (whole, kept) = (grouped(versions * LENGTH), grouped(cell_bytes));
        self.say(&format!("  {day:<9}   {versions:>8}   {whole:>12}   {cells:>5}   {kept:>12}"));
        let fields = [("versions", versions), ("whole_bytes", versions * LENGTH), ("cell_bytes", cell_bytes)];
        let fields = fields.map(|(name, number)| (name, number.into()));
        self.days.push(Json::Object([("day", day.into())].into_iter().chain(fields).collect()));
        Ok(())
    }

    fn look(&mut self) -> Result<(), Failure> {
        self.say("\nThe newest version lies whole (direct); older ones borrow from the next newer (indirect):");
        self.shell(&format!("list {STORE} 0"))?;
        self.shell(&format!("tally {STORE}"))
    }

    fn old_version(&mut self) -> Result<(), Failure> {
        self.say("\nThe counter's Monday is wanted back, through five newer versions:");
        self.shell(&format!("restore {STORE} 0 1 restored.img"))?;
        let (restored, kept) = (read("restored.img")?, read("monday.img")?);
        if restored != kept {
            return Err(Failure::file("restored.img: not the image that the till sent on Monday"));
        }
        self.say("Compared with what the till sent on Monday: the same, byte for byte. Its journal ends with");
        self.say(&format!("  {}", bakery::last_line(&restored)));
        Ok(())
    }

    fn retire(&mut self) -> Result<(), Failure> {
        self.say("\nAny version may go; the others stay as they are. What is gone is refused, and nothing is altered:");
        self.shell(&format!("retire {STORE} 0 3"))?;
        self.shell(&format!("restore {STORE} 0 3 restored.img"))
    }

    /// A day of sales at all tills; their images lie ready.
    fn close(&mut self, day: &str) -> Result<(), Failure> {
        for (name, till) in &mut self.tills {
            keep(&format!("{name}.img"), till.close(&day[..3]))?;
        }
        Ok(())
    }
}

/// Runs a command line and gives its reply.
fn command(line: &str) -> Result<String, Failure> {
    let words: Vec<OsString> = line.split_whitespace().map(OsString::from).collect();
    super::run(&words).map(|reply| reply.text)
}

fn keep(name: &str, bytes: &[u8]) -> Result<(), Failure> {
    fs::write(name, bytes).map_err(|error| Failure::io(Path::new(name), "could not be written", &error))
}

fn read(name: &str) -> Result<Vec<u8>, Failure> {
    fs::read(name).map_err(|error| Failure::io(Path::new(name), "cannot be read", &error))
}

/// A temporary folder that the play works in; it goes with the play, whatever happens.
struct Folder {
    own: PathBuf,
    before: PathBuf,
}

impl Folder {
    fn enter() -> Result<Folder, Failure> {
        let own = std::env::temp_dir().join(format!("lurdempos-demo-{}", std::process::id()));
        let failed = |error| Failure::io(&own, "could not be made for the play", &error);
        let before = std::env::current_dir().unwrap_or_else(|_| PathBuf::from("/"));
        leftovers::make_folder(&own, || fs::DirBuilder::new().mode(0o700).create(&own)).map_err(failed)?;
        let folder = Folder { own: own.clone(), before };
        std::env::set_current_dir(&folder.own).map_err(failed)?;
        Ok(folder)
    }
}

impl Drop for Folder {
    fn drop(&mut self) {
        let _ = std::env::set_current_dir(&self.before);
        let _ = leftovers::settle(&self.own, || fs::remove_dir_all(&self.own));
    }
}
