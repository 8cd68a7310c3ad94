//! Several processes at one store.

mod common;
use common::{draft_of, letters, Bench};
use std::fs::{self, File};
use std::os::unix::fs::PermissionsExt;
use std::thread;
use std::time::{Duration, Instant};

/// What is said with exit status 4, with the process that holds the lock: this one.
fn being_written() -> [String; 3] {
    let holder = format!("being written by another process (process id {})", std::process::id());
    [holder, "nothing was altered".into(), "What to do: wait".into()]
}

fn is_told(run: &common::Run) {
    run.fails(4, &being_written().each_ref().map(String::as_str));
}

#[test]
fn told_when_another_run_writes() {
    let bench = Bench::with_store("locked");
    bench.fed("backup s 0 -", &letters("AB")).accepted();
    bench.write("image", letters("C"));
    let before = bench.read("s");
    let draft = File::create(bench.path(&draft_of("s"))).unwrap();
    draft.lock().unwrap();
    let lines = ["backup s 0 image --wait 0", "closing s 0=image 1=image --wait 0", "retire s 0 1 --wait 0"];
    for line in lines.into_iter().chain(["retire s 0 --keep 0 --wait=1"]) {
        is_told(&bench.run(line));
    }
    for line in ["list s", "tally s", "bill s --price 1", "check s", "map s", "restore s 0 1 out"] {
        bench.run(line).accepted();
    }
    assert_eq!((bench.read("s"), bench.names().len()), (before, 4));
    // Not only dropped: a child that another test is just starting may have a copy of it for an instant.
    draft.unlock().unwrap();
    bench.run("backup s 0 image").accepted();
    assert_eq!(bench.names(), ["image", "out", "s"], "the draft that nobody has is gone");
}

#[test]
fn told_when_somebody_holds_the_store() {
    let bench = Bench::with_store("held");
    bench.write("image", letters("C"));
    let store = File::open(bench.path("s")).unwrap();
    let before = bench.read("s");
    store.lock().unwrap();
    is_told(&bench.run("backup s 0 image --wait 0"));
    store.unlock().unwrap();
    store.lock_shared().unwrap();
    is_told(&bench.run("backup s 0 image --wait 0"));
    assert_eq!((bench.read("s"), bench.names()), (before, vec!["image".to_string(), "s".into()]));
    store.unlock().unwrap();
    bench.run("backup s 0 image").accepted();
}

#[test]
fn told_when_an_output_or_a_new_store_is_being_written() {
    let bench = Bench::with_store("locked-output");
    bench.fed("backup s 0 -", &letters("AB")).accepted();
    for (name, line) in [("out", "restore s 0 1 out --wait 0"), ("n", "init n --wait 0")] {
        let draft = File::create(bench.path(&draft_of(name))).unwrap();
        draft.lock().unwrap();
        is_told(&bench.run(line));
        draft.unlock().unwrap();
    }
    bench.run("restore s 0 1 out").accepted();
    bench.run("init n").accepted();
    assert_eq!(bench.names(), ["n", "out", "s"]);
}

/// A run waits for another one, and goes on with what that has left.
#[test]
fn waits_for_the_other() {
    let bench = Bench::with_store("waits");
    bench.write("image", letters("C"));
    for name in ["s".to_string(), draft_of("s")] {
        let held = File::options().read(true).append(true).create(true).open(bench.path(&name)).unwrap();
        held.lock().unwrap();
        let begin = Instant::now();
        let child = bench.spawn("backup s 0 image");
        thread::sleep(Duration::from_millis(400));
        held.unlock().unwrap();
        common::Run::of("backup", child.wait_with_output().unwrap()).accepted();
        assert!(begin.elapsed() >= Duration::from_millis(400), "{name}");
    }
    let store = File::open(bench.path("s")).unwrap();
    store.lock().unwrap();
    let begin = Instant::now();
    is_told(&bench.run("backup s 0 image --wait 1"));
    assert!(begin.elapsed() >= Duration::from_secs(1));
}

/// Something that is no draft of ours lies where the draft would.
#[test]
fn in_the_way() {
    let bench = Bench::with_store("in-the-way");
    bench.write("precious", "keep me");
    bench.write("image", "x");
    let (draft, words) = (draft_of("s"), format!("{} is in the way", draft_of("s")));
    std::os::unix::fs::symlink("precious", bench.path(&draft)).unwrap();
    bench.run("backup s 0 image").fails(3, &[&words]);
    fs::remove_file(bench.path(&draft)).unwrap();
    fs::create_dir(bench.path(&draft)).unwrap();
    bench.run("backup s 0 image").fails(3, &[&words]);
    assert_eq!(bench.read("precious"), b"keep me");
}

/// A file of the user's own that is called almost like a draft stays.
#[test]
fn a_users_own_file_stays() {
    let bench = Bench::with_store("own-file");
    bench.write("image", "x");
    for name in ["s.lurdempos-new", "out.lurdempos-new", "n.lurdempos-new"] {
        bench.write(name, "my own");
    }
    for line in ["backup s 0 image", "restore s 0 1 out", "retire s 0 1", "init n", "map s --output out"] {
        bench.run(line).accepted();
    }
    bench.run("restore s 0 1 s.lurdempos-new").fails(1, &["refused, 18"]);
    for name in ["s.lurdempos-new", "out.lurdempos-new", "n.lurdempos-new"] {
        assert_eq!(bench.read(name), b"my own");
    }
}

/// A store that has several names is not changed under one of them.
#[test]
fn several_names() {
    let bench = Bench::with_store("several-names");
    bench.write("image", "x");
    fs::hard_link(bench.path("s"), bench.path("other")).unwrap();
    let before = bench.read("s");
    for line in ["backup s 0 image", "backup other 0 image", "retire s 0 --keep 0"] {
        bench.run(line).fails(3, &["has 2 names (hard links)", "What to do: remove the other names"]);
    }
    bench.run("list other").accepted();
    assert!(bench.read("s") == before && bench.read("other") == before);
    fs::remove_file(bench.path("other")).unwrap();
    bench.run("backup s 0 image").accepted();
    assert_eq!(bench.names(), ["image", "s"]);
}

/// A store that somebody replaces while a backup runs: what was put there is there at the end, or is what was changed.
#[test]
fn replaced_while_it_runs() {
    let bench = Bench::new("replaced");
    bench.run("init first").accepted();
    bench.run("init second --tills 3").accepted();
    bench.write("image", vec![9; 33_268]);
    let (first, second) = (bench.read("first"), bench.read("second"));
    let mut refused = 0;
    for round in 0..20 {
        bench.write("s", &first);
        bench.write("new", &second);
        let mut child = bench.spawn("backup s 2 image");
        while bench.drafts().is_empty() && child.try_wait().unwrap().is_none() {}
        thread::sleep(Duration::from_micros(400 * round));
        fs::rename(bench.path("new"), bench.path("s")).unwrap();
        let run = common::Run::of("backup", child.wait_with_output().unwrap());
        if run.status == Some(0) {
            // It was replaced before it was opened, or after the backup was made.
            let tills = bench.run("list s").out.lines().filter(|line| line.starts_with("till")).count();
            assert_eq!(tills, 3, "what was put there is lost");
        } else {
            run.fails(3, &["s: was replaced by another file while this run was at it"]);
            assert!(bench.read("s") == second);
            refused += 1;
        }
        assert!(bench.drafts().is_empty());
    }
    println!("{refused} of 20 were refused");
}

/// A link that comes to the store's place while a backup waits is left, and the backup ends.
#[test]
fn a_link_comes_to_its_place() {
    let bench = Bench::with_store("link-comes");
    bench.write("image", letters("C"));
    let (store, before) = (File::open(bench.path("s")).unwrap(), bench.read("s"));
    store.lock().unwrap();
    let mut child = bench.spawn("backup s 0 image --wait 2");
    while bench.drafts().is_empty() && child.try_wait().unwrap().is_none() {}
    thread::sleep(Duration::from_millis(100));
    fs::rename(bench.path("s"), bench.path("moved")).unwrap();
    std::os::unix::fs::symlink("moved", bench.path("s")).unwrap();
    store.unlock().unwrap();
    let begin = Instant::now();
    while child.try_wait().unwrap().is_none() && begin.elapsed() < Duration::from_secs(20) {
        thread::sleep(Duration::from_millis(10));
    }
    let _ = child.kill();
    let run = common::Run::of("backup", child.wait_with_output().unwrap());
    run.fails(3, &["s: was replaced by another file while this run was at it", "What to do: see what is there now"]);
    assert_eq!((bench.read("moved"), bench.names()), (before, vec!["image".to_string(), "moved".into(), "s".into()]));
    assert!(fs::symlink_metadata(bench.path("s")).unwrap().is_symlink());
    bench.run("backup s 0 image").accepted();
}

/// Rights that somebody takes away while a backup waits do not come back with it.
#[test]
fn rights_that_change_while_it_waits() {
    let bench = Bench::with_store("rights");
    bench.write("image", letters("C"));
    let store = File::open(bench.path("s")).unwrap();
    store.lock().unwrap();
    let mut child = bench.spawn("backup s 0 image");
    while bench.drafts().is_empty() && child.try_wait().unwrap().is_none() {}
    thread::sleep(Duration::from_millis(100));
    fs::set_permissions(bench.path("s"), fs::Permissions::from_mode(0o600)).unwrap();
    store.unlock().unwrap();
    common::Run::of("backup", child.wait_with_output().unwrap()).accepted();
    assert_eq!(bench.mode("s"), 0o600);
}

/// So many backups at the same time, of 16 tills in turn: all are kept.
fn closing_at_once(bench: &Bench, runs: usize, wait: &str) {
    bench.run("init s").accepted();
    let children: Vec<_> = (0..runs)
        .map(|n| {
            bench.write(&format!("image{n}"), format!("closing {n} ").repeat(300));
            bench.spawn(&format!("backup s {} image{n} {wait}", n % 16))
        })
        .collect();
    for child in children {
        common::Run::of("backup", child.wait_with_output().unwrap()).accepted();
    }
    bench.run("tally s").accepted().says(&format!("versions  {runs:>7} held"));
    assert!(bench.drafts().is_empty());
}

/// Tills that close at the same time, each with its own plain backup and no option.
#[test]
fn tills_closing_at_once() {
    closing_at_once(&Bench::new("at-once"), 16, "");
}

/// Five times as many, with patience.
#[test]
fn many_tills_closing_at_once() {
    closing_at_once(&Bench::new("many-at-once"), 80, "--wait 60");
}

/// Many at once that do not wait: each backup is kept or told, and none of those that are kept is lost.
#[test]
fn no_update_is_lost() {
    let bench = Bench::new("crowd");
    bench.run("init s --tills 2 --versions 64").accepted();
    let kept: Vec<(u32, String, Vec<u8>, usize)> = thread::scope(|scope| {
        let workers: Vec<_> = (0..6u32)
            .map(|worker| {
                scope.spawn({
                    let bench = &bench;
                    move || work(bench, worker)
                })
            })
            .collect();
        workers.into_iter().flat_map(|worker| worker.join().unwrap()).collect()
    });
    let mut numbers: Vec<(u32, &str)> = kept.iter().map(|(till, version, ..)| (*till, version.as_str())).collect();
    numbers.sort();
    numbers.dedup();
    assert_eq!(numbers.len(), 30, "every number is given once");
    for (till, version, image, _) in &kept {
        assert!(bench.run(&format!("restore s {till} {version} -")).bytes == *image, "till {till}, version {version}");
    }
    bench.run("tally s").accepted().says("versions       30 held");
    println!("told to wait {} times", kept.iter().map(|(.., told)| told).sum::<usize>());
    assert_eq!(bench.names(), ["s"]);
}

/// Five backups, each tried until it is kept: till, version, image, and how often it was told to wait.
fn work(bench: &Bench, worker: u32) -> Vec<(u32, String, Vec<u8>, usize)> {
    let (till, mut kept) = (worker % 2, Vec::new());
    for n in 0..5 {
        let image = format!("worker {worker}, image {n} ").repeat(60).into_bytes();
        let mut told = 0;
        let version = loop {
            let run = bench.fed(&format!("backup s {till} - --wait 0"), &image);
            if run.status == Some(0) {
                break run.out.split_whitespace().nth(3).unwrap().to_string();
            }
            run.fails(4, &["being written by another process", "nothing was altered"]);
            bench.run("check s").accepted();
            told += 1;
        };
        kept.push((till, version, image, told));
    }
    kept
}

#[test]
fn one_of_many_inits() {
    let bench = Bench::new("inits");
    for round in 0..5 {
        let line = format!("init s{round} --tills {} --blocks 16 --cells 100", round + 1);
        let runs: Vec<common::Run> = thread::scope(|scope| {
            let all: Vec<_> = (0..6).map(|_| scope.spawn(|| bench.run(&line))).collect();
            all.into_iter().map(|one| one.join().unwrap()).collect()
        });
        assert_eq!(runs.iter().filter(|run| run.status == Some(0)).count(), 1, "{runs:?}");
        assert_eq!(runs.iter().filter(|run| run.status == Some(3)).count(), 5, "{runs:?}");
        bench.run(&format!("check s{round}")).accepted();
    }
    assert_eq!(bench.names(), ["s0", "s1", "s2", "s3", "s4"]);
}
