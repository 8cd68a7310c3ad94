//! The tool's backups as a shop makes them, a process each, and where their time goes.

use keeper::closings::{Shop, LENGTH};
use std::io::{self, Write};
use std::path::{Path, PathBuf};
use std::process::{Command, Stdio};
use std::sync::Mutex;
use std::time::{Duration, Instant};
use std::{env, fs};

const TILLS: usize = 16;
const CLOSINGS: usize = 64;
const BACKUPS: u32 = (TILLS * CLOSINGS) as u32;

/// Set for a process of this program that is to be the tool with a clock.
const CLOCKED: &str = "BENCH_CLOCKED";

/// The phases of this process's run so far, each with when it began.
static PHASES: Mutex<Vec<(&str, Instant)>> = Mutex::new(Vec::new());

struct Clock;

impl tool::Watch for Clock {
    fn phase(&self, name: &'static str) {
        PHASES.lock().expect("nobody has failed with it").push((name, Instant::now()));
    }
}

/// Runs the command line as the tool does if this process is asked to, and tells on standard error how long each phase
/// took, in nanoseconds.
pub fn as_the_tool() -> io::Result<bool> {
    if env::var_os(CLOCKED).is_none() {
        return Ok(false);
    }
    tool::watch(&Clock);
    tool::Watch::phase(&Clock, "read the command line and the image");
    tool::main();
    tool::Watch::phase(&Clock, "");
    let phases = PHASES.lock().expect("nobody has failed with it");
    for pair in phases.windows(2) {
        writeln!(io::stderr(), "{}: {}", pair[0].0, (pair[1].1 - pair[0].1).as_nanos())?;
    }
    Ok(true)
}

/// A folder of its own, which goes at the end.
struct Folder(PathBuf);

impl Drop for Folder {
    fn drop(&mut self) {
        let _ = fs::remove_dir_all(&self.0);
    }
}

/// What all backups took together: the processes, and each phase.
#[derive(Default)]
struct Taken {
    whole: Duration,
    phases: Vec<(String, Duration)>,
}

impl Taken {
    /// Adds what a process has told.
    fn add(&mut self, told: &str) {
        for (name, taken) in told.lines().filter_map(|line| line.rsplit_once(": ")) {
            let taken = Duration::from_nanos(taken.parse().unwrap_or(0));
            match self.phases.iter_mut().find(|(known, _)| known == name) {
                Some((_, sum)) => *sum += taken,
                None => self.phases.push((name.into(), taken)),
            }
        }
    }
}

pub fn report() -> io::Result<String> {
    let bench = env::current_exe()?;
    let tool = bench.with_file_name("lurdempos");
    if !tool.is_file() {
        return Err(io::Error::other("the tool is missing: run `cargo build --release -p tool` first"));
    }
    // Beside the program, since folders for temporary files are often in memory.
    let folder = Folder(bench.with_file_name("backups"));
    let _ = fs::remove_dir_all(&folder.0);
    fs::create_dir(&folder.0)?;
    let (store, clocked) = (folder.0.join("s"), folder.0.join("clocked"));
    let whole = backups(&tool, &store)?.whole;
    let taken = backups(&bench, &clocked)?;
    Ok(shown(whole, &taken, fs::metadata(store)?.len()))
}

/// All backups into a new store, by this program.
fn backups(program: &Path, store: &Path) -> io::Result<Taken> {
    let image = store.with_extension("img");
    let mut taken = Taken::default();
    let run = |words: [&std::ffi::OsStr; 5], taken: &mut Taken| {
        let mut command = Command::new(program);
        let begin = Instant::now();
        let output = command.args(words).env(CLOCKED, "").stdout(Stdio::null()).output()?;
        taken.whole += begin.elapsed();
        taken.add(&String::from_utf8_lossy(&output.stderr));
        output.status.success().then_some(()).ok_or_else(|| io::Error::other(format!("{command:?} failed")))
    };
    let words = ["init".as_ref(), store.as_os_str(), "--quiet".as_ref(), "--wait".as_ref(), "0".as_ref()];
    run(words, &mut Taken::default())?;
    let mut shop = Shop::new(1, TILLS);
    for n in 0..BACKUPS as usize {
        fs::write(&image, shop.close(n % TILLS))?;
        let till = (n % TILLS).to_string();
        let words = ["backup".as_ref(), store.as_os_str(), till.as_ref(), image.as_os_str(), "--quiet".as_ref()];
        run(words, &mut taken)?;
    }
    Ok(taken)
}

fn shown(whole: Duration, clocked: &Taken, bytes: u64) -> String {
    let each = |time: Duration| time.as_secs_f64() * 1_000.0 / f64::from(BACKUPS);
    let mut text = format!(
        "{BACKUPS} backups of {LENGTH} bytes into one store, {TILLS} tills with {CLOSINGS} versions each, a process for each: \
         {:.1} s, {:.1} ms each. The file has {bytes} bytes, and a backup writes each of them once \
         (`harness/tool/tests/written.rs`). The same with a clock in each process:\n\n",
        whole.as_secs_f64(),
        each(whole)
    );
    text += "| where the time goes | ms of a backup | part |\n|---|---:|---:|\n";
    let known: Duration = clocked.phases.iter().map(|(_, taken)| *taken).sum();
    let process = ("start and end the process".to_string(), clocked.whole.saturating_sub(known));
    for (name, taken) in std::iter::once(&process).chain(&clocked.phases) {
        let part = 100.0 * taken.as_secs_f64() / clocked.whole.as_secs_f64();
        text += &format!("| {name} | {:.2} | {part:.0} % |\n", each(*taken));
    }
    text + &format!("| all | {:.2} | 100 % |\n", each(clocked.whole))
}
