//! What shops and scripts ask for: rotation, exact lengths, comparisons, larger stores.

mod common;
use common::{file_of, letters, Bench};
use lurdempos::{Capacities, Store, OWNER};
use std::os::unix::fs::PermissionsExt;

/// A store whose till 0 holds four versions, as many as it can.
fn full(name: &str) -> Bench {
    let bench = Bench::with_store(name);
    for text in ["ABCDEFGH", "ABCDEFGZ", "A.CDEFGZ", "ABCDEFGH"] {
        bench.fed("backup s 0 -", &letters(text)).accepted();
    }
    bench.write("image", letters("ABXDEFGH"));
    bench
}

#[test]
fn rotation() {
    let bench = full("rotation");
    bench.run("backup s 0 image").fails(1, &["refused, 11", "`backup --rotate` does both in one"]);
    let before = bench.read("s");
    let kept = bench.run("backup s 0 image --rotate");
    let said = "till 0: version 1 retired, 512 bytes\ntill 0: version 5 kept, 512 bytes\n";
    assert_eq!(kept.accepted().out, said);
    bench.run("list s 0").accepted().says("versions 2 to 5");
    let after = bench.read("s");
    // The same as both calls by themselves.
    bench.write("s", before);
    bench.run("retire s 0 1").accepted();
    bench.run("backup s 0 image --rotate").accepted().says("version 5 kept");
    assert_eq!(bench.read("s"), after, "a till that is not full loses nothing");
    // What is refused for another reason retires nothing.
    bench.write("long", [1; 1025]);
    bench.run("backup s 0 long --rotate").fails(1, &["refused, 4"]);
    bench.run("backup s 2 image --rotate").fails(1, &["refused, 3"]);
    bench.run("init tight --tills 1 --versions 1 --blocks 2 --records 1 --cells 2").accepted();
    bench.fed("backup tight 0 -", &letters("AB")).accepted();
    let before = bench.read("tight");
    bench.fed("backup tight 0 - --rotate", &letters("CD")).accepted().says("version 1 retired");
    bench.write("tight", &before);
    bench.fed("backup tight 0 - --rotate", &letters("CDE")).fails(1, &["refused, 4"]);
    assert_eq!(bench.read("tight"), before);
}

#[test]
fn keeping_so_many() {
    let bench = full("keep");
    let before = bench.read("s");
    assert_eq!(bench.run("retire s 0 --keep 4").accepted().out, "till 0: no version retired\n");
    assert_eq!(bench.read("s"), before);
    assert_eq!(bench.run("retire s 0 --keep 1").accepted().out, "till 0: versions 1 to 3 retired, 1536 bytes\n");
    let mut store = Store::new(Capacities::new(2, 4, 16, 8, 64)).unwrap();
    for text in ["ABCDEFGH", "ABCDEFGZ", "A.CDEFGZ", "ABCDEFGH"] {
        store.backup(OWNER, 0, &letters(text)).unwrap();
    }
    (1..=3).for_each(|version| assert_eq!(store.retire(OWNER, 0, version), Ok(512)));
    assert_eq!(bench.read("s"), file_of(store.pool(), store.table()));
    assert_eq!(bench.run("retire s 0 --keep=0").accepted().out, "till 0: version 4 retired, 512 bytes\n");
    assert_eq!(bench.run("retire s 1 --keep 0").accepted().out, "till 1: no version retired\n");
    bench.run("retire s 2 --keep 0").fails(1, &["refused, 3"]);
}

#[test]
fn the_newest() {
    let bench = full("newest");
    assert!(bench.run("restore s 0 newest -").accepted().bytes == letters("ABCDEFGH"));
    bench
        .run("restore s 0 newest out")
        .accepted()
        .says("till 0: version 4 restored to out, 512 bytes, longest chain 0");
    bench.run("restore s 1 newest out").fails(1, &["refused, 17", "till 1 holds no version"]);
    bench.run("restore s 2 newest out").fails(1, &["refused, 3"]);
    bench.run("verify s 0 newest out").accepted();
}

#[test]
fn exact_lengths_and_unchanged_images() {
    let bench = Bench::with_store("lengths");
    bench.write("image", letters("AB"));
    let before = bench.read("s");
    bench
        .run("backup s 0 image --bytes 129")
        .fails(3, &["image: has 128 bytes, --bytes asks for 129; it was not kept"]);
    bench.fed("backup s 0 - --bytes 1", b"").fails(3, &["standard input: has 0 bytes, --bytes asks for 1"]);
    bench.fed("backup s 0 - --bytes 2", b"1").fails(3, &["has 1 byte, "]);
    bench
        .fed("backup s 0 - --bytes 65536", &[1; 70_000])
        .fails(3, &["has more than 65536 bytes, --bytes asks for 65536"]);
    // An image that no store takes may have the length that was asked for.
    bench.fed("backup s 0 - --bytes 70000", &[1; 70_000]).fails(1, &["refused, 4"]);
    assert_eq!(bench.read("s"), before);
    bench.run("backup s 0 image --bytes=128").accepted();
    let before = bench.read("s");
    let same = bench.run("backup s 0 image --unless-same");
    assert_eq!(same.accepted().out, "till 0: the same as version 1, nothing kept\n");
    assert_eq!(bench.read("s"), before);
    bench.run("backup s 1 image --unless-same").accepted().says("version 1 kept");
    bench.fed("backup s 0 - --unless-same", &letters("AC")).accepted().says("version 2 kept");
    // Only the newest counts; and a full till loses nothing for an image that it has.
    bench.run("backup s 0 image --unless-same").accepted().says("version 3 kept");
    bench.fed("backup s 0 -", &letters("AC")).accepted();
    bench.fed("backup s 0 - --unless-same --rotate", &letters("AC")).accepted().says("the same as version 4");
    bench.fed("backup s 0 -", &letters("AC")).fails(1, &["refused, 11"]);
}

#[test]
fn dry_runs() {
    let bench = full("dry");
    let before = bench.read("s");
    let said = "till 0: version 1 would be retired, 512 bytes\n\
                till 0: version 5 would be kept, 512 bytes; cells 11 before, 11 after, of 64\n";
    assert_eq!(bench.run("backup s 0 image --rotate --dry-run").accepted().out, said);
    let same = bench.fed("backup s 0 - --unless-same --dry-run", &letters("ABCDEFGH"));
    same.accepted().says("the same as version 4, nothing would be kept; cells 11 before, 11 after, of 64");
    bench.run("backup s 0 image --dry-run").fails(1, &["refused, 11"]);
    bench.run("retire s 0 5 --dry-run").fails(1, &["refused, 17"]);
    let retired = bench.run("retire s 0 3 --dry-run");
    retired.accepted().says("till 0: version 3 would be retired, 512 bytes; cells 11 before, 11 after, of 64\n");
    let retired = bench.run("retire s 0 --keep 1 --dry-run");
    retired.accepted().says("till 0: versions 1 to 3 would be retired, 1536 bytes; cells 11 before, 8 after, of 64");
    // A dry run needs no lock.
    std::fs::File::open(bench.path("s")).unwrap().lock().unwrap();
    bench.run("retire s 0 1 --dry-run").accepted();
    assert_eq!((bench.read("s"), bench.names()), (before, vec!["image".to_string(), "s".into()]));
    bench.run("retire s 0 --keep 1").accepted();
    bench.run("tally s").accepted().says("cells           8 of 64");
}

#[test]
fn comparisons() {
    let bench = full("compare");
    bench.write("v1", letters("ABCDEFGH"));
    bench.run("verify s 0 1 v1").accepted().says("till 0: version 1 and v1 are the same, 512 bytes\n");
    assert_eq!(bench.fed("verify s 0 4 -", &letters("ABCDEFGH")).status, Some(0));
    let other = bench.fed("verify s 0 1 -", &letters("ABCDEFG"));
    assert_eq!((other.status, other.err.as_str()), (Some(5), ""));
    other.says("version 1 with 512 bytes and standard input with 448 bytes differ, first at byte 448");
    assert_eq!(bench.run("verify s 0 2 v1").status, Some(5));
    bench.fed("verify s 0 1 -", &[65; 70_000]).says("more than 65536 bytes");
    bench.fed("verify s 0 1 - --json", &[65; 65_536]).says("\"image_bytes\": 65536,");
    bench.fed("verify s 0 1 - --json", &[65; 65_537]).says("\"image_bytes\": null,");
    bench.run("verify s 0 7 v1").fails(1, &["refused, 17"]);
    bench.run("verify s 0 1 none").fails(3, &["none: cannot be read"]);

    bench.run("diff s 0 1 4").accepted().says("till 0: versions 1 and 4 are the same, 512 bytes\n");
    let differ = bench.run("diff s 0 1 3");
    assert_eq!((differ.status, differ.err.as_str()), (Some(5), ""));
    let said = "till 0: versions 1 and 3 differ in 2 places, 128 bytes\n  bytes 64 to 127\n  bytes 448 to 511\n";
    assert_eq!(differ.out, said);
    let mut image = letters("ABCD");
    image[100] = 7;
    image.push(1);
    bench.fed("backup s 1 -", &letters("ABCD")).accepted();
    bench.fed("backup s 1 -", &image).accepted();
    let said = "till 1: versions 1 and 2 differ in 1 place, 1 byte\n  byte 100\n  version 2 alone has byte 256\n";
    assert_eq!(bench.run("diff s 1 1 newest").out, said);
    bench.run("diff s 1 1 3").fails(1, &["refused, 17"]);
}

#[test]
fn all_at_once() {
    let bench = full("export");
    bench.fed("backup s 1 -", b"x").accepted();
    let before = bench.read("s");
    bench.run("export-all s out/").accepted().says("s: 5 versions written to out/, 2049 bytes\n");
    let mut names: Vec<String> = std::fs::read_dir(bench.path("out"))
        .unwrap()
        .map(|entry| entry.unwrap().file_name().into_string().unwrap())
        .collect();
    names.sort();
    let expected = ["till-0-version-1.img", "till-0-version-2.img", "till-0-version-3.img", "till-0-version-4.img"];
    assert_eq!(names, [&expected[..], &["till-1-version-1.img"]].concat());
    assert_eq!(bench.read("out/till-0-version-3.img"), letters("A.CDEFGZ"));
    assert_eq!(bench.read("out/till-1-version-1.img"), b"x");
    bench.run("export-all s out").fails(3, &["out: exists already and was not altered"]);
    bench.run("export-all s image").fails(3, &["image: exists already"]);
    bench.run("export-all s none/out").fails(3, &["none/out: could not be made: No such file"]);
    assert_eq!((bench.read("s"), bench.names()), (before, vec!["image".into(), "out".into(), "s".to_string()]));
}

#[test]
fn growing() {
    let bench = full("grow");
    bench.run("retire s 0 --keep 3").accepted();
    (0..3).for_each(|n| assert_eq!(bench.fed("backup s 1 -", &letters(["AB", "AC", "A"][n])).status, Some(0)));
    bench.run("retire s 1 --keep 0").accepted();
    let before = bench.read("s");
    let grown = "larger: 3 versions of s, 2 tills x 4 versions of up to 1024 bytes, 16 records, 128 cells\n";
    assert_eq!(bench.run("grow s larger").accepted().out, grown);
    // The same versions under the same numbers, and the numbers go on.
    let tills = |file: &str| {
        let listed = bench.run(&format!("list {file} --json")).out;
        let (listed, capacities) = listed.split_once(", \"capacities\": ").unwrap();
        assert!(capacities.ends_with("\"block_bytes\": 64, \"segment_blocks\": 8, \"rebuild_percent\": 20}}\n"));
        listed.split_once(", \"tills\": ").unwrap().1.to_string()
    };
    assert_eq!(tills("larger"), tills("s"));
    for version in 2..=4 {
        let (old, new) = (format!("restore s 0 {version} -"), format!("restore larger 0 {version} -"));
        assert!(bench.run(&old).accepted().bytes == bench.run(&new).accepted().bytes);
    }
    bench.run("backup larger 1 image").accepted().says("version 4 kept");
    bench.run("grow s wide --tills 16 --versions 64 --image-bytes 65536 --records 100 --cells 2000").accepted();
    bench.run("check wide").accepted().says("16 tills x 64 versions of up to 65536 bytes, 100 records, 2000 cells");
    bench.run("grow s larger").fails(3, &["larger: exists already"]);
    // The new store is for the same eyes.
    for mode in [0o600, 0o640, 0o664] {
        std::fs::set_permissions(bench.path("s"), std::fs::Permissions::from_mode(mode)).unwrap();
        bench.shell(&format!("umask 022; lurdempos grow s mode{mode}")).accepted();
        assert_eq!(bench.mode(&format!("mode{mode}")), mode);
    }
    bench.run("grow s less --records 7").fails(2, &["NEW would have 7 records, OLD has 8"]);
    bench.run("grow s more --cells 40000").fails(1, &["refused, 1", "--cells 40000, but 1 to 32768"]);
    assert_eq!((bench.read("s"), bench.drafts().len()), (before, 0));
}

/// Many versions, with the oldest gone.
#[test]
fn growing_a_large_store() {
    let bench = Bench::new("grow-large");
    bench.run("init s --tills 4 --versions 16 --image-bytes 2000 --records 200 --cells 1500").accepted();
    let mut random = common::Random(8);
    for n in 0..80 {
        let image: Vec<u8> = (0..1 + random.below(30)).flat_map(|_| [random.below(40) as u8; 64]).collect();
        bench.fed(&format!("backup s {} - --rotate", n % 4), &image).accepted();
    }
    bench.run("grow s new --versions 64").accepted().says("64 versions of s");
    let lines = |name: &str| bench.run(&format!("list {name}")).accepted().out.clone();
    assert_eq!(lines("s"), lines("new"));
    bench.run("export-all s old").accepted();
    bench.run("export-all new new-images").accepted();
    bench.shell("diff -r old new-images").accepted();
}

/// Numbers stay as they are, with their gaps; the numbers go on where they were.
#[test]
fn growing_and_writing_out_with_gaps() {
    let bench = Bench::new("grow-gaps");
    bench.run("init s --tills 3 --versions 8 --image-bytes 2000 --records 200 --cells 1500").accepted();
    let mut random = common::Random(9);
    for n in 0..24 {
        let image: Vec<u8> = (0..1 + random.below(30)).flat_map(|_| [random.below(40) as u8; 64]).collect();
        bench.fed(&format!("backup s {} -", n % 3), &image).accepted();
    }
    for (till, version) in [(0, 1), (0, 4), (0, 5), (1, 8), (1, 7), (1, 2), (2, 3)] {
        bench.run(&format!("retire s {till} {version}")).accepted();
    }
    let heads = [
        "till 0: versions 2 to 3, 6 to 8",
        "till 1: versions 1, 3 to 6; the last was 8",
        "till 2: versions 1 to 2, 4 to 8",
    ];
    let tills = |name: &str| {
        let listed = bench.run(&format!("list {name}")).accepted().out.clone();
        listed.lines().filter(|line| line.starts_with("till ")).map(String::from).collect::<Vec<String>>()
    };
    assert_eq!(tills("s"), heads);
    bench.run("grow s new --versions 64 --segment-blocks 4").accepted().says("new: 17 versions of s");
    assert_eq!(tills("new"), heads);
    bench.run("export-all s old").accepted().says("17 versions written");
    bench.run("export-all new new-images").accepted();
    bench.shell("diff -r old new-images").accepted();
    assert!(bench.path("old/till-0-version-6.img").exists() && !bench.path("old/till-0-version-5.img").exists());
    bench.run("salvage s salvaged").accepted().says("17 versions: 17 certain");
    bench.shell("rm salvaged/report.txt && diff -r old salvaged").accepted();
    for name in ["s", "new"] {
        bench.run(&format!("verify {name} 1 newest old/till-1-version-6.img")).accepted().says("version 6");
        assert_eq!(bench.run(&format!("diff {name} 0 3 6")).status, Some(5));
        bench
            .run(&format!("diff {name} 0 3 5"))
            .fails(1, &["version 5 was given and is retired; till 0 holds versions 2 to 3, 6 to 8"]);
        bench.run(&format!("backup {name} 1 old/till-1-version-1.img")).accepted().says("version 9 kept");
        bench.run(&format!("map {name} --output {name}.svg")).accepted();
    }
}
