//! Versions moved from one store to another: `export` and `import`, through files and pipes.

mod common;
use common::{letters, Bench};
use std::fs::{self, Permissions};
use std::os::unix::fs::PermissionsExt;

/// The store `s` with an image of 1,000 bytes as version 1 of till 0, and an empty one of other measures.
fn two_stores(name: &str) -> (Bench, Vec<u8>) {
    let bench = Bench::with_store(name);
    let image: Vec<u8> = (0..1000u32).map(|n| if n < 300 { 0 } else { (n * n % 251) as u8 }).collect();
    bench.write("image", &image);
    bench.run("backup s 0 image").accepted();
    let measures = "--block-bytes 128 --segment-blocks 16 --image-bytes 2000";
    bench.run(&format!("init other --tills 6 --versions 3 {measures} --records 8 --cells 64")).accepted();
    (bench, image)
}

#[test]
fn through_a_pipe() {
    let (bench, image) = two_stores("moves-pipe");
    let run = bench.shell("lurdempos export s 0 1 - | lurdempos import other 5 -");
    assert_eq!(run.accepted().out, "till 5: version 1 kept, 1000 bytes\n");
    assert!(bench.run("restore other 5 1 -").accepted().bytes == image);
    // The same stream from a store of other measures, and back again.
    let stream = bench.run("export s 0 1 -").accepted().bytes.clone();
    assert_eq!((stream.len(), &stream[..5]), (4 + 2 + 12 * 64, &[232, 3, 0, 0, 0b1111_0000][..]));
    assert!(bench.run("export other 5 newest -").accepted().bytes == stream);
    bench.shell("lurdempos export other 5 1 /dev/stdout | lurdempos import s 1 /dev/stdin").accepted();
    assert!(bench.run("restore s 1 newest -").accepted().bytes == image);
}

#[test]
fn through_a_file() {
    let (bench, image) = two_stores("moves-file");
    let run = bench.run("export s 0 1 version.stream");
    run.accepted().says("till 0: version 1 of 1000 bytes written to version.stream, a stream of 774 bytes\n");
    assert_eq!(bench.mode("version.stream"), bench.mode("s"));
    bench.run("import other 2 version.stream").accepted().says("till 2: version 1 kept, 1000 bytes\n");
    assert!(bench.run("restore other 2 1 -").accepted().bytes == image);
    assert_eq!(bench.run("export s 0 1 version.stream --quiet").accepted().out, "");
    assert!(bench.drafts().is_empty());
}

#[test]
fn outputs_as_those_of_restore() {
    let (bench, _) = two_stores("moves-outputs");
    bench.run("export s 0 1 other").fails(2, &["other is a store, which would be lost", "--force"]);
    bench.run("export s 0 1 s --force").fails(2, &["s is the store itself"]);
    bench.run("export s 0 1 - --json").fails(2, &["--json and a stream cannot go to one output"]);
    bench.write("readonly", "old");
    fs::set_permissions(bench.path("readonly"), Permissions::from_mode(0o400)).unwrap();
    bench.run("export s 0 1 readonly").fails(2, &["readonly is write-protected"]);
    bench.run("export s 0 1 readonly --force").accepted();
    bench.shell("lurdempos export s 0 1 - > /dev/full").fails(3, &["standard output could not be written"]);
    bench.shell("lurdempos export s 0 1 - >> s").fails(2, &["standard output is s, the store itself"]);
    bench.run("import s 0 missing").fails(3, &["missing: cannot be read: No such file"]);
}

#[test]
fn for_programs() {
    let (bench, _) = two_stores("moves-json");
    let told = bench.run("export s 0 newest out --json").accepted().out.clone();
    let (undated, rest) = (r#""day": 0, "date": null"#, r#""output": "out", "bytes": 1000, "stream_bytes": 774}"#);
    assert_eq!(told.trim_end(), format!(r#"{{"file": "s", "till": 0, "version": 1, {undated}, {rest}"#));
    let told = bench.run("import other 0 out --json").accepted().out.clone();
    let rest = r#""bytes": 1000, "kept": true, "retired": null"#;
    let begins = format!(r#"{{"file": "other", "till": 0, "version": 1, {undated}, {rest}"#);
    assert!(told.starts_with(&begins), "{told}");
}

/// The options of `backup` go with `import` too.
#[test]
fn options_of_a_backup() {
    let (bench, _) = two_stores("moves-options");
    bench.run("export s 0 1 v").accepted();
    bench.run("import other 0 v --dry-run").accepted().says("version 1 would be kept, 1000 bytes");
    bench.run("list other 0").accepted().says("till 0: nothing yet");
    bench.run("import other 0 v").accepted();
    bench.run("import other 0 v --unless-same").accepted().says("the same as version 1, nothing kept");
    bench.run("import other 0 v --bytes 999").fails(3, &["v: has 1000 bytes, --bytes asks for 999"]);
    (0..2).for_each(|_| assert_eq!(bench.run("import other 0 v").status, Some(0)));
    bench.run("import other 0 v").fails(1, &["refused, 11: "]);
    bench.run("import other 0 v --rotate").accepted().says("version 1 retired").says("version 4 kept");
}

/// Streams that are none, each with its number and what to do; the store stays as it is.
#[test]
fn refused_streams() {
    let (bench, image) = two_stores("moves-refused");
    let stream = bench.run("export s 0 1 -").accepted().bytes.clone();
    let before = bench.read("other");
    let refused = |bytes: &[u8], number: u32, words: &str| {
        bench.write("in", bytes);
        for run in [bench.run("import other 0 in"), bench.fed("import other 0 -", bytes)] {
            run.fails(1, &[&format!("lurdempos: refused, {number}: "), words, "Here: ", "What to do: "]);
        }
        assert!(bench.read("other") == before);
    };
    refused(&[], 24, "nothing came from ");
    refused(&stream[..3], 24, "ends before its last block, or goes on behind it");
    refused(&stream[..500], 24, "`lurdempos export`");
    refused(&[&stream[..], &[0]].concat(), 24, "goes on behind it");
    refused(&[&stream[..], &[0; 100_000]].concat(), 24, "goes on behind it");
    refused(&[0; 64], 25, "begins with a length of 0, an image has 1 to 65536 bytes");
    refused(&letters("A"), 25, "begins with a length of 1094795585");
    refused(&letters("A"), 25, "a bare image is kept with `lurdempos backup`");
    let mut altered = stream.clone();
    altered[5..69].fill(0);
    refused(&altered, 26, "has what no image's stream has");
    *altered.last_mut().unwrap() = 1;
    refused(&altered, 26, "write it once more with `lurdempos export`");
    // A refused export leaves nothing for the import.
    let run = bench.shell("lurdempos export s 0 9 - | lurdempos import other 0 -");
    run.fails(
        1,
        &["refused, 17: a version number that is 0 or above", "refused, 24: ", "nothing came from standard input"],
    );
    assert!(bench.read("other") == before);
    // What a store of smaller images does not take is refused as in a backup.
    bench.run("init small --tills 1 --blocks 2 --records 2 --cells 9").accepted();
    let run = bench.fed("import small 0 -", &stream);
    run.fails(1, &["refused, 4: ", &format!("the image has {} bytes, this store takes 1 to 128", image.len())]);
}

#[test]
fn refusals_of_a_restore() {
    let (bench, _) = two_stores("moves-not-held");
    bench.run("export s 2 1 out").fails(1, &["refused, 3: ", "there is no till 2"]);
    bench
        .run("export s 0 2 out")
        .fails(1, &["refused, 17: ", "the last number of till 0 is 1; it holds version 1 alone"]);
    bench
        .run("export s 1 newest out")
        .fails(1, &["refused, 17: ", "till 1 holds no version, and has given no number yet"]);
    bench.run("import s 2 image").fails(1, &["refused, 25: "]);
    bench.run("retire s 0 1").accepted();
    bench.run("export s 0 1 out").fails(1, &["refused, 18: ", "version 1 was given and is retired"]);
    assert_eq!(bench.names(), ["image", "other", "s"]);
}
