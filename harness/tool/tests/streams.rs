//! Standard input and output, outputs of every kind, links and permissions.

mod common;
use common::{letters, Bench, Run};
use std::fs::{self, Permissions};
use std::os::unix::fs::{symlink, FileTypeExt, MetadataExt, PermissionsExt};
use std::process::Stdio;

fn with_version(name: &str) -> (Bench, Vec<u8>) {
    let bench = Bench::with_store(name);
    let image: Vec<u8> = (0..1000u32).map(|n| (n * n % 251) as u8).collect();
    bench.fed("backup s 0 -", &image).accepted().says("till 0: version 1 kept, 1000 bytes");
    (bench, image)
}

#[test]
fn images_through_streams() {
    let (bench, image) = with_version("streams");
    assert!(bench.run("restore s 0 1 -").accepted().bytes == image, "exactly the image, and no word more");
    bench.shell("lurdempos restore s 0 1 - | lurdempos backup s 1 -").accepted();
    assert!(bench.run("restore s 1 1 -").accepted().bytes == image);
    assert!(bench.fed("backup s 1 /dev/stdin", &image).accepted().out.contains("version 2"));
    bench.run("backup s 1 missing").fails(3, &["missing: cannot be read: No such file"]);
    fs::create_dir(bench.path("folder")).unwrap();
    bench.run("backup s 1 folder").fails(3, &["folder: cannot be read"]);
}

/// Runs with standard output that nobody reads.
fn unread(bench: &Bench, line: &str) -> Run {
    let (reader, writer) = std::io::pipe().unwrap();
    drop(reader);
    let mut command = bench.command(line);
    Run::of(line, command.stdout(writer).stderr(Stdio::piped()).spawn().unwrap().wait_with_output().unwrap())
}

#[test]
fn closed_pipes() {
    let (bench, _) = with_version("closed");
    for line in ["list s", "list s --json", "tally s", "check s", "map s", "--help", "--version"] {
        assert_eq!((unread(&bench, line).status, unread(&bench, line).err.as_str()), (Some(0), ""), "{line}");
    }
    unread(&bench, "restore s 0 1 -").fails(3, &["standard output could not be written"]);
    let kept = unread(&bench, "backup s 0 s");
    kept.fails(1, &["refused, 4"]);
    bench.write("image", "x");
    let kept = unread(&bench, "backup s 0 image");
    assert!(kept.status == Some(0) && kept.err.contains("the change is made, but"), "{kept:?}");
    bench.run("list s 0").accepted().says("versions 1 to 2");
    bench.shell("lurdempos list s 2>&- >&-").accepted();
    assert_eq!(bench.shell("lurdempos list 2>&-").status, Some(2));
    bench.shell("lurdempos check s <&-").accepted();
}

#[test]
fn full_devices() {
    let (bench, _) = with_version("full");
    for line in ["list s", "tally s", "check s", "map s", "restore s 0 1 -", "demo"] {
        bench.shell(&format!("lurdempos {line} > /dev/full")).fails(3, &["standard output could not be written"]);
    }
    bench.write("image", "x");
    let kept = bench.shell("lurdempos backup s 0 image > /dev/full");
    assert!(kept.status == Some(0) && kept.err.contains("the change is made"), "{kept:?}");
}

#[test]
fn outputs_that_cannot_be() {
    let (bench, _) = with_version("outputs");
    fs::create_dir(bench.path("folder")).unwrap();
    for (output, words) in [
        ("missing/out", "its folder cannot be used"),
        ("folder", "folder: is a folder"),
        ("s/out", "s/out: "),
        ("new/", "names no file"),
    ] {
        bench.run(&format!("restore s 0 1 {output}")).fails(3, &[words]);
        bench.run(&format!("map s --output {output}")).fails(3, &[words]);
    }
    symlink("nowhere", bench.path("dangling")).unwrap();
    bench.run("restore s 0 1 dangling").fails(3, &["dangling: "]);
    assert_eq!(bench.names(), ["dangling", "folder", "s"]);
}

/// A pipe stays a pipe.
#[test]
fn named_pipes() {
    let (bench, image) = with_version("fifo");
    let run = bench.shell("mkfifo p; cat p > got & lurdempos restore s 0 1 p; wait");
    run.accepted().says("restored to p, 1000 bytes");
    assert!(bench.read("got") == image);
    assert!(fs::metadata(bench.path("p")).unwrap().file_type().is_fifo());
    assert_eq!(bench.names(), ["got", "p", "s"]);
}

/// Names of descriptors mean the descriptors, as `-` does: a file behind one is written to where it stands, and no word
/// is added to the image.
#[test]
fn descriptors_by_their_names() {
    let (bench, image) = with_version("descriptors");
    symlink("/dev/stdout", bench.path("link")).unwrap();
    for name in ["/dev/stdout", "/dev/fd/1", "/proc/self/fd/1", "./link", "-"] {
        bench.write("log", "before\n");
        let number = fs::metadata(bench.path("log")).unwrap().ino();
        bench.shell(&format!("lurdempos restore s 0 1 {name} >> log")).accepted();
        assert!(bench.read("log") == [b"before\n", &image[..]].concat(), "{name}");
        assert_eq!(fs::metadata(bench.path("log")).unwrap().ino(), number, "{name} replaced the log");
        let piped = bench.shell(&format!("lurdempos restore s 0 1 {name} | cat")).accepted().bytes.clone();
        assert!(piped == image, "{name}");
    }
    bench.write("log", "before\n");
    let run = bench.shell("lurdempos restore s 0 1 /dev/fd/3 3>> log; lurdempos restore s 0 1 /dev/stderr 2>> log");
    assert_eq!(run.accepted().out, "");
    assert!(bench.read("log") == [b"before\n", &image[..], &image[..]].concat());
    bench.shell("lurdempos restore s 0 1 /dev/fd/9 9>&-").fails(3, &["descriptor 9 could not be written"]);
    bench.write("log", "before\n");
    bench.shell("lurdempos restore s 0 1 /proc/thread-self/fd/1 >> log").accepted();
    assert!(bench.read("log") == [b"before\n", &image[..]].concat());
    for name in ["/dev/fd/3", "/dev/stderr"] {
        let run = bench.shell(&format!("lurdempos map s --output {name} --json 3> /dev/null"));
        run.fails(2, &["--json answers in the place of a picture that goes to a stream", "Usage: lurdempos map"]);
    }
    let picture = bench.run("map s").accepted().bytes.clone();
    bench.write("log", "before\n");
    bench.shell("lurdempos map s --output /dev/stdout >> log").accepted();
    assert!(bench.read("log") == [b"before\n", &picture[..]].concat());
    assert_eq!(bench.names(), ["link", "log", "s"]);
}

/// Descriptors that the tool has for itself, or that were closed when it began, are not for images.
#[test]
fn descriptors_that_were_not_given() {
    let bench = Bench::with_store("not-given");
    // Written to where signals are noted this would end the run by signal 15.
    bench.fed("backup s 0 -", &[15; 64]).accepted();
    for number in 3..10 {
        let words = format!("descriptor {number} could not be written");
        bench.run(&format!("restore s 0 1 /dev/fd/{number}")).fails(3, &[&words]);
        bench.run(&format!("map s --output /dev/fd/{number}")).fails(3, &[&words]);
    }
    bench.shell("lurdempos restore s 0 1 /dev/fd/0 <&-").fails(3, &["descriptor 0 could not be written: it is closed"]);
    assert_eq!(bench.shell("lurdempos restore s 0 1 /dev/stderr 2>&-").status, Some(3));
    assert_eq!(bench.names(), ["s"]);
}

/// An image that nobody gets is an error, and so is one that would go into the store.
#[test]
fn closed_or_the_store_itself() {
    let (bench, _) = with_version("closed-output");
    for name in ["-", "/dev/stdout", "/dev/fd/1"] {
        bench.shell(&format!("lurdempos restore s 0 1 {name} >&-")).fails(3, &["standard output could not be written"]);
    }
    for line in ["map s", "map s --output /dev/stdout", "map s --json", "--manual", "--completions", "--help"] {
        bench.shell(&format!("lurdempos {line} >&-")).fails(3, &["standard output could not be written: it is closed"]);
    }
    bench.write("image", "x");
    let before = bench.read("s");
    let lines = ["restore s 0 1 -", "restore s 0 1 /dev/stdout", "list s", "check s", "map s", "salvage s f"];
    for line in lines.into_iter().chain(["backup s 0 image", "tally s --json", "restore s 0 1 out", "retire s 0 1"]) {
        let run = bench.shell(&format!("lurdempos {line} >> s"));
        run.fails(2, &["standard output is s, the store itself"]);
        // Not even this is said if it would go there.
        assert_eq!(bench.shell(&format!("lurdempos {line} >> s 2>&1")).status, Some(2));
        assert_eq!(bench.shell(&format!("lurdempos {line} 2>> s")).status, Some(2));
        assert!(bench.read("s") == before, "{line}");
    }
    bench.shell("lurdempos restore s 0 1 /dev/fd/3 3>> s").fails(2, &["the store itself"]);
    assert_eq!((bench.read("s"), bench.names()), (before, vec!["image".to_string(), "s".into()]));
}

/// Stores and protected files are not replaced by an output unless that is asked for.
#[test]
fn protected_outputs() {
    let (bench, image) = with_version("protected");
    bench.run("init other --cells 600").accepted();
    bench.write("readonly", "precious");
    bench.write("plain", "old");
    fs::set_permissions(bench.path("readonly"), Permissions::from_mode(0o444)).unwrap();
    let store = bench.read("other");
    for command in ["restore s 0 1", "map s --output"] {
        bench.run(&format!("{command} other")).fails(2, &["other is a store, which would be lost", "--force"]);
        bench.run(&format!("{command} readonly")).fails(2, &["readonly is write-protected", "--force"]);
        bench.run(&format!("{command} s --force")).fails(2, &["s is the store itself"]);
        bench.run(&format!("{command} plain")).accepted();
    }
    assert_eq!((bench.read("other"), bench.read("readonly")), (store, b"precious".to_vec()));
    bench.run("restore s 0 1 other --force").accepted();
    bench.run("restore --force s 0 1 readonly").accepted();
    assert!(bench.read("other") == image && bench.read("readonly") == image);
    assert_eq!(bench.mode("readonly"), 0o444);
}

/// Names as long as the system takes them.
#[test]
fn long_names() {
    let (bench, image) = with_version("long-names");
    for name in ["n".repeat(255), "ü".repeat(127)] {
        bench.run(&format!("restore s 0 1 {name}")).accepted();
        assert!(bench.read(&name) == image);
        fs::remove_file(bench.path(&name)).unwrap();
        bench.run(&format!("init {name}")).accepted();
        bench.shell(&format!("cat s | lurdempos backup {name} 0 -; lurdempos list {name} 0 > list")).accepted();
        bench.run(&format!("export-all {name} {}", name.replace(['n', 'ü'], "o"))).accepted();
    }
    assert!(bench.drafts().is_empty());
}

#[test]
fn links_are_followed() {
    let (bench, image) = with_version("links");
    fs::create_dir(bench.path("real")).unwrap();
    fs::rename(bench.path("s"), bench.path("real/s")).unwrap();
    symlink("real/s", bench.path("link")).unwrap();
    bench.write("image", "x");
    bench.run("backup link 0 image").accepted();
    assert!(fs::symlink_metadata(bench.path("link")).unwrap().is_symlink());
    bench.run("list real/s 0").accepted().says("versions 1 to 2");
    bench.write("real/out", "old");
    symlink("real/out", bench.path("out")).unwrap();
    bench.run("restore link 0 1 out").accepted();
    assert!(bench.read("real/out") == image && fs::symlink_metadata(bench.path("out")).unwrap().is_symlink());
    bench.run("restore link 0 1 real/s").fails(2, &["is the store itself"]);
    bench.run("restore real/s 0 1 link").fails(2, &["is the store itself"]);
    bench.run("init link").fails(3, &["exists already"]);
}

#[test]
fn permissions_stay() {
    let (bench, _) = with_version("modes");
    bench.write("image", letters("A"));
    bench.write("out", "old");
    fs::set_permissions(bench.path("s"), Permissions::from_mode(0o640)).unwrap();
    fs::set_permissions(bench.path("out"), Permissions::from_mode(0o604)).unwrap();
    bench.run("backup s 0 image").accepted();
    bench.run("restore s 0 1 out").accepted();
    assert_eq!((bench.mode("s"), bench.mode("out")), (0o640, 0o604));
    bench.shell("umask 027; lurdempos init n && lurdempos restore s 0 1 o").accepted();
    assert_eq!((bench.mode("n"), bench.mode("o")), (0o640, 0o640));
}

/// A restored image is for the same eyes as the store.
#[test]
fn images_get_the_stores_mode() {
    let (bench, _) = with_version("image-modes");
    for mode in [0o600, 0o640, 0o660] {
        fs::set_permissions(bench.path("s"), Permissions::from_mode(mode)).unwrap();
        bench.shell(&format!("umask 022; lurdempos restore s 0 1 o{mode}")).accepted();
        assert_eq!(bench.mode(&format!("o{mode}")), mode);
        bench.shell(&format!("lurdempos export-all s f{mode} && lurdempos salvage s g{mode}")).accepted();
        for name in [format!("f{mode}/till-0-version-1.img"), format!("g{mode}/till-0-version-1.img")] {
            assert_eq!(bench.mode(&name), mode, "{name}");
        }
        assert_eq!(bench.mode(&format!("f{mode}")), 0o100 | mode | (mode & 0o444) >> 2);
    }
}
