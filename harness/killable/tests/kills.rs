//! The tool killed, or a step of it failing, at every write, sync and rename of a run: the old file is there or the new
//! one, never a mix, and what is left behind hinders nobody.

#[path = "../../tool/tests/common/mod.rs"]
mod common;
use common::{draft_of, letters, Bench};

/// A line that changes one file, and how the folder looks before.
struct Scene {
    name: &'static str,
    line: &'static str,
    file: &'static str,
    prepare: fn(&Bench),
}

const SCENES: [Scene; 18] = [
    Scene { name: "init", line: "init new --tills 2 --blocks 16 --cells 64 --records 8", file: "new", prepare: |_| {} },
    Scene { name: "backup", line: "backup s 0 image", file: "s", prepare: |_| {} },
    Scene { name: "dated", line: "backup s 0 image --day 7", file: "s", prepare: |_| {} },
    Scene { name: "closing", line: "closing s 0=image 1=image", file: "s", prepare: |_| {} },
    Scene { name: "chained", line: "backup s 0 image --with t --limit 20", file: "s", prepare: second },
    Scene { name: "chained-closing", line: "closing s 1=image --with t --limit 99", file: "s", prepare: second },
    Scene { name: "over-limit", line: "backup s 0 image --with t --limit 1", file: "s", prepare: second },
    Scene { name: "backup-sent", line: "backup-sent s 0 message", file: "s", prepare: message },
    Scene { name: "offer", line: "offer s 0 prints out", file: "out", prepare: message },
    Scene { name: "retire", line: "retire s 0 1", file: "s", prepare: |_| {} },
    Scene { name: "rotate", line: "backup s 0 image --rotate", file: "s", prepare: filled },
    Scene { name: "retire-keep", line: "retire s 0 --keep 1", file: "s", prepare: |_| {} },
    Scene { name: "grow", line: "grow s larger", file: "larger", prepare: |_| {} },
    Scene { name: "restore", line: "restore s 0 1 out", file: "out", prepare: |_| {} },
    Scene {
        name: "restore-over",
        line: "restore s 0 1 out",
        file: "out",
        prepare: |bench| bench.write("out", "old output"),
    },
    Scene { name: "map", line: "map s --output out", file: "out", prepare: |_| {} },
    Scene {
        name: "leftover",
        line: "backup s 0 image",
        file: "s",
        prepare: |bench| bench.write(&draft_of("s"), "half a st"),
    },
    Scene { name: "refused", line: "backup s 7 image", file: "s", prepare: |_| {} },
];

/// Another store on the disk, with three cells occupied.
fn second(bench: &Bench) {
    bench.run("init t --tills 1 --blocks 16 --cells 64 --records 8").accepted();
    bench.fed("backup t 0 -", &letters("xyz")).accepted();
}

/// Till 0 holds as many versions as it can.
fn filled(bench: &Bench) {
    ["AB", "BA"].iter().for_each(|text| assert_eq!(bench.fed("backup s 0 -", &letters(text)).status, Some(0)));
}

/// The messages of a till whose image has one segment that the store has.
fn message(bench: &Bench) {
    for line in ["fingerprints s image prints", "offer s 0 prints marks", "sent s image marks message"] {
        bench.run(line).accepted();
    }
}

impl Scene {
    fn bench(&self, what: &str, n: u32) -> Bench {
        let bench = Bench::with_store(&format!("{what}-{}-{n}", self.name));
        for text in ["ABCDEFGH", "ABCDEFGZ"] {
            bench.fed("backup s 0 -", &letters(text)).accepted();
        }
        bench.write("image", letters("IJKLMNOPABCDEFGZ"));
        (self.prepare)(&bench);
        bench
    }

    /// Whether the store refuses it.
    fn is_refused(&self) -> bool {
        ["refused", "over-limit"].contains(&self.name)
    }

    /// The file before the run, if there is one, and after it. Each test has a folder of its own for it, since tests run at the same time.
    fn old_and_new(&self, what: &str) -> [Option<Vec<u8>>; 2] {
        let bench = self.bench(what, 0);
        let old = self.found(&bench);
        bench.run(self.line);
        [old, self.found(&bench)]
    }

    fn found(&self, bench: &Bench) -> Option<Vec<u8>> {
        std::fs::read(bench.path(self.file)).ok()
    }

    /// After a kill or a failure: readers and the next run work, and then no draft is left.
    fn goes_on(&self, bench: &Bench, expected: &[Option<Vec<u8>>]) {
        assert!(expected.contains(&self.found(bench)), "{}: neither the old file nor the new one", self.name);
        for line in ["check s", "list s", "tally s", "map s", "restore s 0 2 -"] {
            bench.run(line).accepted();
        }
        let again = bench.run(self.line);
        assert!(again.status.is_some(), "{again:?}");
        let made = ["init", "grow"].contains(&self.name) && again.err.contains("exists already");
        let retired = self.name == "retire" && again.err.contains("refused, 18");
        assert!(again.status == Some(0) || self.is_refused() || made || retired, "{again:?}");
        bench.fed("backup s 1 -", &letters("QQQ")).accepted();
        assert!(bench.drafts().is_empty(), "{:?}", bench.names());
    }
}

/// Kills at moment after moment until a run comes through, and gives how often the old and the new file were found.
fn killed_everywhere(scene: &Scene) -> [usize; 2] {
    let expected = scene.old_and_new("kill");
    let mut met = [0, 0];
    for n in 1.. {
        let bench = scene.bench("kill", n);
        let run = bench.run_with(scene.line, "LURDEMPOS_KILL_AT", n);
        if run.signal.is_none() {
            assert!(scene.found(&bench) == expected[1], "{run:?}");
            break;
        }
        assert_eq!((run.signal, run.out.as_str()), (Some(6), ""), "killed, and nothing said");
        met[usize::from(scene.found(&bench) == expected[1])] += 1;
        scene.goes_on(&bench, &expected);
    }
    met
}

#[test]
fn killed_at_every_step() {
    for scene in SCENES {
        let met = killed_everywhere(&scene);
        match scene.name {
            _ if scene.is_refused() => assert_eq!(met, [0, 1]), // the old file is the new one
            "leftover" => assert!(met[0] >= 6 && met[1] == 2, "{met:?}"),
            // create, write, its middle, sync and rename before the change; sync of the folder and the end after it
            name => assert_eq!(met, [5, 2], "{name}"),
        }
    }
}

/// A step that fails, as on a full disk, ends the run with status 3, the old file, and no draft.
#[test]
fn failing_at_every_step() {
    for scene in SCENES {
        let [old, new] = scene.old_and_new("fail");
        for n in 1.. {
            let bench = scene.bench("fail", n);
            let run = bench.run_with(scene.line, "LURDEMPOS_FAIL_AT", n);
            let left = !bench.drafts().is_empty();
            if run.err.is_empty() || scene.is_refused() && run.status == Some(1) {
                break;
            }
            if run.err.contains("its folder could not be synced") {
                assert!((run.status, scene.found(&bench), left) == (Some(0), new.clone(), false), "{run:?}");
            } else {
                run.fails(3, &["could not be written, and was not altered", "LURDEMPOS_FAIL_AT"]);
                assert!(scene.found(&bench) == old && (!left || scene.name == "leftover"), "{run:?}");
            }
            scene.goes_on(&bench, &[old.clone(), new.clone()]);
        }
    }
}

/// A folder of images is there as a whole or not at all; what a killed run leaves is named, and not removed unasked.
#[test]
fn a_folder_is_whole() {
    for n in 1.. {
        let bench = SCENES[1].bench("folder", n);
        let run = bench.run_with("export-all s out", "LURDEMPOS_KILL_AT", n);
        let there = bench.names().contains(&"out".to_string());
        if run.signal.is_none() {
            run.accepted();
            assert!(there && n > 4, "{n}");
            break;
        }
        assert!(!there, "killed at step {n}");
        let again = bench.run("export-all s out");
        match bench.drafts().as_slice() {
            [] => drop(again.accepted()),
            [draft] => drop(again.fails(3, &["of another run is in the way", &format!("{draft}`")])),
            drafts => panic!("{drafts:?}"),
        }
        let failed = SCENES[1].bench("folder-fails", n);
        failed.run_with("export-all s out", "LURDEMPOS_FAIL_AT", n).fails(3, &["LURDEMPOS_FAIL_AT"]);
        assert_eq!(failed.names(), ["image", "s"], "a run that fails leaves nothing");
    }
}

/// A store that somebody replaces or removes in the middle of a change is not overwritten.
#[test]
fn replaced_in_the_middle() {
    let disturbances = [
        ("cp other another; mv another s", "s: was replaced by another file while this run was at it"),
        ("rm s", "s: was removed while this run was at it"),
        ("cp other s", "s: was changed by another program while this run was at it, and was left so"),
        ("chmod 604 s", "s: was changed by another program"),
        ("ln s more", "s: was changed by another program"),
    ];
    for (disturbance, words) in disturbances {
        // The draft is made in step 1; from step 2 on the store is open.
        for step in 2..=5 {
            let bench = SCENES[1].bench("replaced", step);
            bench.write("other", "somebody else's");
            let before = bench.read("s");
            let mut command = bench.command("backup s 0 image");
            command.env("LURDEMPOS_RUN_AT", step.to_string()).env("LURDEMPOS_RUN", disturbance);
            common::Run::of(disturbance, command.output().unwrap()).fails(3, &[words, "What to do: see what is there"]);
            let found = std::fs::read(bench.path("s")).ok();
            let left = match disturbance {
                "rm s" => None,
                "chmod 604 s" | "ln s more" => Some(before),
                _ => Some(b"somebody else's".to_vec()),
            };
            assert!(found == left, "step {step} of {disturbance}");
            assert!(bench.drafts().is_empty());
        }
    }
    let bench = SCENES[1].bench("appeared", 0);
    let mut command = bench.command("init new");
    command.env("LURDEMPOS_RUN_AT", "4").env("LURDEMPOS_RUN", "echo mine > new");
    common::Run::of("init", command.output().unwrap()).fails(3, &["new: exists already"]);
    assert_eq!(bench.read("new"), b"mine\n");
}
