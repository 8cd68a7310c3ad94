//! Runs that are ended from outside: signals, limits, kills. Nothing is lost, and a run that can still do so leaves no
//! draft.

mod common;
use common::{letters, Bench, Random};
use std::process::Child;
use std::time::{Duration, Instant};

extern "C" {
    fn kill(process: i32, signal: i32) -> i32;
}

const HANGUP: i32 = 1;
const INTERRUPT: i32 = 2;
const TERMINATE: i32 = 15;

fn send(child: &Child, signal: i32) {
    // SAFETY: this signals a child that has not been waited for.
    assert_eq!(unsafe { kill(child.id() as i32, signal) }, 0);
}

/// Waits until it is so, but not for ever.
fn wait_for(mut so: impl FnMut() -> bool) -> bool {
    let begin = Instant::now();
    while !so() {
        if begin.elapsed() > Duration::from_secs(20) {
            return false;
        }
        std::thread::yield_now();
    }
    true
}

/// A signal that ends a run in the middle of a change: it ends by that signal, and its draft is gone.
#[test]
fn signals_remove_the_draft() {
    let bench = Bench::new("signals");
    bench.run("init s").accepted();
    bench.write("image", vec![9; 33_268]);
    let mut ended = 0;
    for round in 0..30 {
        let signal = [HANGUP, INTERRUPT, TERMINATE][round % 3];
        let mut child = bench.spawn("backup s 3 image");
        let id = child.id();
        assert!(wait_for(|| !bench.drafts().is_empty() || child.try_wait().unwrap().is_some()));
        if child.try_wait().unwrap().is_none() {
            send(&child, signal);
        }
        let run = common::Run::of("backup", child.wait_with_output().unwrap());
        assert!(bench.drafts().is_empty(), "signal {signal} to process {id} left {:?}", bench.names());
        assert!(run.status == Some(0) || run.signal == Some(signal), "{run:?}");
        ended += usize::from(run.signal.is_some());
        bench.run("check s").accepted();
    }
    println!("{ended} of 30 runs ended by a signal");
    assert!(ended > 3, "{ended}");
}

/// The same for a run that waits with its draft made, and for a signal that is ignored from the start.
#[test]
fn signals_while_it_waits() {
    let bench = Bench::with_store("signals-wait");
    bench.write("image", "x");
    let store = std::fs::File::open(bench.path("s")).unwrap();
    store.lock().unwrap();
    for signal in [HANGUP, INTERRUPT, TERMINATE] {
        let child = bench.spawn("backup s 0 image --wait 60");
        assert!(wait_for(|| !bench.drafts().is_empty()));
        send(&child, signal);
        let run = common::Run::of("backup", child.wait_with_output().unwrap());
        assert_eq!((run.signal, run.out.as_str(), run.err.as_str()), (Some(signal), "", ""));
        assert_eq!(bench.names(), ["image", "s"]);
    }
    let ignoring = bench.shell("trap '' HUP; lurdempos backup s 0 image --wait 1 & sleep 0.3; kill -HUP $!; wait $!");
    ignoring.fails(4, &["being written by another process"]);
}

/// The folder that the demo works in.
#[test]
fn signals_remove_the_demos_folder() {
    let bench = Bench::new("signals-demo");
    for round in 0..12 {
        let signal = [HANGUP, INTERRUPT, TERMINATE][round % 3];
        let mut command = bench.command("demo");
        let mut child = command.env("TMPDIR", bench.path("")).stdout(std::process::Stdio::null()).spawn().unwrap();
        assert!(wait_for(|| !bench.names().is_empty() || child.try_wait().unwrap().is_some()));
        std::thread::sleep(Duration::from_millis(3 * round as u64));
        if child.try_wait().unwrap().is_none() {
            send(&child, signal);
        }
        child.wait().unwrap();
        assert!(bench.names().is_empty(), "signal {signal} left {:?}", bench.names());
    }
}

/// Runs with so much memory at most, with a folder of its own for temporary files.
fn with_memory(bench: &Bench, kib: u32, line: &str) -> (Option<i32>, String) {
    let mut command = std::process::Command::new("sh");
    command.args(["-c", &format!("ulimit -v {kib}; exec {} {line}", common::TOOL)]);
    let output = command.current_dir(bench.path("")).env("TMPDIR", bench.path("tmp")).output().unwrap();
    (output.status.code(), String::from_utf8_lossy(&output.stderr).into_owned())
}

/// Too little memory, from hardly any to almost enough: the run ends with status 3, and leaves no draft.
#[test]
fn no_memory() {
    let bench = Bench::new("no-memory");
    bench.run("init s").accepted();
    bench.run("init t").accepted();
    bench.write("image", vec![9; 33_268]);
    std::fs::create_dir(bench.path("tmp")).unwrap();
    for till in 0..6 {
        bench.run(&format!("backup s {till} image")).accepted();
    }
    let before = bench.read("s");
    let lines =
        ["backup s 3 image", "backup s 3 image --with t", "export-all s out", "salvage s out", "grow s out", "demo"];
    for line in lines {
        let mut met = [0, 0];
        for kib in (4_000..60_000).step_by(2_000) {
            let (status, words) = with_memory(&bench, kib, line);
            let left = (bench.drafts(), std::fs::read_dir(bench.path("tmp")).unwrap().count());
            assert!(left == (Vec::new(), 0), "{line} with {kib} KiB: {left:?}");
            if status == Some(0) {
                assert_eq!(words, "", "{line} with {kib} KiB");
                bench.write("s", &before);
                bench.shell("rm -rf out").accepted();
                met[1] += 1;
                continue;
            }
            assert!(bench.read("s") == before && bench.names() == ["image", "s", "t", "tmp"], "{line} with {kib} KiB");
            // With hardly any the program cannot be loaded, or Rust's own start fails; the tool has not begun then.
            let begun = words.starts_with("lurdempos: ") && !words.contains("shared libraries");
            assert!(status == Some(3) || !begun, "{line} with {kib} KiB: {status:?} {words}");
            met[0] += usize::from(words == "lurdempos: there is not enough memory; nothing was altered\n");
        }
        assert!(met[0] > 0 && met[1] > 3, "{line}: {met:?}");
    }
}

/// Killed from outside, at any time.
#[test]
fn killed_at_any_time() {
    let bench = Bench::new("kill-any");
    bench.run("init s").accepted();
    bench.fed("backup s 3 -", &vec![7; 33_268]).accepted();
    let old = bench.read("s");
    bench.write("image", vec![9; 33_268]);
    bench.run("backup s 3 image").accepted();
    let new = bench.read("s");
    let mut random = Random(11);
    let mut met = [0, 0];
    for _ in 0..40 {
        bench.write("s", &old);
        let mut child = bench.spawn("backup s 3 image");
        std::thread::sleep(Duration::from_micros(random.below(30_000) as u64));
        let _ = child.kill();
        child.wait().unwrap();
        let found = bench.read("s");
        assert!(found == old || found == new, "a mix");
        met[usize::from(found == new)] += 1;
        bench.run("check s").accepted();
    }
    bench.run("backup s 3 image").accepted();
    assert_eq!(bench.names(), ["image", "s"], "after {met:?} kills before and after");
}

/// A write that the system really refuses: a limit on the length of files stands for a full disk.
#[test]
fn no_room_for_the_draft() {
    let bench = Bench::with_store("no-room");
    bench.fed("backup s 0 -", &letters("ABC")).accepted();
    bench.write("image", letters("D"));
    let before = bench.read("s");
    for line in ["backup s 0 image", "retire s 0 1", "map s --output out", "init n"] {
        let run = bench.shell(&format!("trap '' XFSZ; ulimit -f 2; lurdempos {line}"));
        run.fails(3, &["could not be written, and was not altered: File too large"]);
        // Without the trap the system would kill the tool in the middle of the write, if that did not ask it not to.
        let run = bench.shell(&format!("ulimit -f 2; lurdempos {line}"));
        run.fails(3, &["could not be written, and was not altered: File too large"]);
        assert!(bench.read("s") == before && bench.drafts().is_empty(), "{:?}", bench.names());
    }
    bench.run("backup s 0 image").accepted();
    bench.run("map s --output out").accepted();
    bench.run("init n").accepted();
    assert_eq!(bench.names(), ["image", "n", "out", "s"]);
}
