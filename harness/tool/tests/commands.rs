//! Each command as it is meant to be used.

mod common;
use common::{file_of, letters, Bench};
use lurdempos::{Capacities, Store, OWNER};

#[test]
fn init_lays_out_an_empty_store() {
    let bench = Bench::new("init");
    bench.run("init a").accepted().says("a: an empty store, 16 tills x 64 versions of up to 33280 bytes");
    let store = Store::new(Capacities::new(16, 64, 520, 4_096, 32_768)).unwrap();
    assert!(bench.read("a") == file_of(store.pool(), store.table()), "the defaults");
    bench.run("init --cells=5 b --records 7 --image-bytes 65 --versions 3 --tills 2").accepted();
    let store = Store::new(Capacities::new(2, 3, 2, 7, 5)).unwrap();
    assert_eq!(bench.read("b"), file_of(store.pool(), store.table()));
    bench.run("init c --blocks 1024").accepted().says("65536 bytes");
    assert_eq!(bench.names(), ["a", "b", "c"], "no draft is left");
}

#[test]
fn init_never_overwrites() {
    let bench = Bench::with_store("init-twice");
    let before = bench.read("s");
    bench.run("init s").fails(3, &["s: exists already and was not altered", "choose another name"]);
    assert_eq!(bench.read("s"), before);
    std::os::unix::fs::symlink("nowhere", bench.path("link")).unwrap();
    bench.run("init link").fails(3, &["link: exists already"]);
    std::fs::create_dir(bench.path("folder")).unwrap();
    bench.run("init folder").fails(3, &["folder: exists already"]);
    assert_eq!(bench.names(), ["folder", "link", "s"]);
}

/// The page's day, with the tool's words for its answers; the file is the library's store after each call.
#[test]
fn a_day_at_the_box() {
    let bench = Bench::new("day");
    bench.run("init s --tills 1 --versions 4 --blocks 16 --records 8 --cells 32").accepted();
    let mut store = Store::new(Capacities::new(1, 4, 16, 8, 32)).unwrap();
    for (n, text) in ["ABCDEFGH", "ABCDEFGZ", "ABCDEFGH", "ABCDEFGH"].iter().enumerate() {
        bench.write("image", letters(text));
        let kept = bench.run("backup s 0 image");
        assert_eq!(kept.accepted().out, format!("till 0: version {} kept, 512 bytes\n", n + 1));
        store.backup(OWNER, 0, &letters(text)).unwrap();
        assert_eq!(bench.read("s"), file_of(store.pool(), store.table()));
    }
    bench
        .run("tally s")
        .accepted()
        .says("cells          10 of 32 occupied\n")
        .says("versions        4 held: 2048 bytes");
    let restored = bench.run("restore s 0 1 out");
    assert_eq!(restored.accepted().out, "till 0: version 1 restored to out, 512 bytes, longest chain 3\n");
    assert_eq!(bench.read("out"), letters("ABCDEFGH"));
    assert_eq!(bench.run("retire s 0 1").accepted().out, "till 0: version 1 retired, 512 bytes\n");
    store.retire(OWNER, 0, 1).unwrap();
    assert_eq!(bench.read("s"), file_of(store.pool(), store.table()));
    bench.run("tally s").accepted().says("cells           9 of 32 occupied\n");
    bench.run("check s").accepted().says("s: sound, 1 till x 4 versions of up to 1024 bytes, 8 records, 32 cells\n");
    assert_eq!(bench.names(), ["image", "out", "s"]);
}

#[test]
fn list_shows_versions_and_chains() {
    let bench = Bench::with_store("list");
    for text in ["ABCDEFGH", "ABCDEFGZ", "A.CDEFGZ"] {
        bench.fed("backup s 1 -", &letters(text)).accepted();
    }
    let shown = "till 1: versions 1 to 3\n  \
                   version   bytes  longest chain  direct  indirect  null  blank\n        \
                         1     512              2       1         7     0      0\n        \
                         2     512              1       1         7     0      0\n        \
                         3     512              0       7         0     1      0\n";
    assert_eq!(bench.run("list s 1").accepted().out, shown);
    assert_eq!(bench.run("list s").accepted().out, format!("till 0: nothing yet\n{shown}"));
    for version in 1..=3 {
        bench.run(&format!("retire s 1 {version}")).accepted();
    }
    bench.run("list s").accepted().says("till 1: no version held, the last was 3\n");
}

#[test]
fn json_for_programs() {
    let bench = Bench::with_store("json");
    bench.fed("backup s 1 -", &letters("AB.")).accepted();
    bench.fed("backup s 1 -", &letters("ABA")[..150]).accepted();
    let listed = "{\"file\": \"s\", \"tills\": [\n  \
                    {\"till\": 0, \"oldest\": 0, \"newest\": 0, \"last\": 0, \"versions\": []},\n  \
                    {\"till\": 1, \"oldest\": 1, \"newest\": 2, \"last\": 2, \"versions\": [\n    \
                      {\"version\": 1, \"day\": 0, \"date\": null, \"bytes\": 192, \"chain\": 1, \
                       \"direct\": 0, \"indirect\": 2, \"null\": 1, \"blank\": 0},\n    \
                      {\"version\": 2, \"day\": 0, \"date\": null, \"bytes\": 150, \"chain\": 0, \
                       \"direct\": 3, \"indirect\": 0, \"null\": 0, \"blank\": 0}]}]";
    let capacities = "\"capacities\": {\"tills\": 2, \"versions\": 4, \"blocks\": 16, \"records\": 8, \"cells\": 64, \
                      \"block_bytes\": 64, \"segment_blocks\": 8, \"rebuild_percent\": 20}}\n";
    assert_eq!(bench.run("list --json s").accepted().out, format!("{listed}, {capacities}"));
    let tallied = "{\"file\": \"s\", \"cells\": 3, \"records\": 1, \"counts\": 3, \"versions\": 2, \"bytes\": 342";
    assert_eq!(bench.run("tally s --json").accepted().out, format!("{tallied}, {capacities}"));
    std::fs::rename(bench.path("s"), bench.path("a\"b\\c\nd")).unwrap();
    let mut command = bench.command("list --json");
    let out = command.arg("a\"b\\c\nd").arg("0").output().unwrap();
    assert!(String::from_utf8_lossy(&out.stdout).starts_with("{\"file\": \"a\\\"b\\\\c\\u000ad\", \"tills\": ["));
}

/// Any version goes; the others keep their numbers and images, and the numbers go on.
#[test]
fn any_version_goes() {
    let bench = Bench::with_store("gaps");
    let texts = ["ABCDEFGH", "ABCDEFGZ", "ABCDEFGH", "ABCDEFGH"];
    texts.iter().for_each(|text| assert_eq!(bench.fed("backup s 0 -", &letters(text)).status, Some(0)));
    let mut store = Store::new(Capacities::new(2, 4, 16, 8, 64)).unwrap();
    texts.iter().for_each(|text| assert!(store.backup(OWNER, 0, &letters(text)).is_ok()));
    assert_eq!(bench.run("retire s 0 3").accepted().out, "till 0: version 3 retired, 512 bytes\n");
    assert_eq!(store.retire(OWNER, 0, 3), Ok(512));
    assert_eq!(bench.read("s"), file_of(store.pool(), store.table()));
    let listed = "till 0: versions 1 to 2, 4\n  \
                    version   bytes  longest chain  direct  indirect  null  blank\n        \
                          1     512              2       1         7     0      0\n        \
                          2     512              1       1         7     0      0\n        \
                          4     512              0       8         0     0      0\n";
    assert_eq!(bench.run("list s 0").accepted().out, listed);
    bench.run("retire s 0 4").accepted();
    bench.run("list s 0").accepted().says("till 0: versions 1 to 2; the last was 4\n");
    bench.run("restore s 0 newest out").accepted().says("version 2 restored").says("longest chain 0");
    assert_eq!(bench.read("out"), letters("ABCDEFGZ"));
    bench.run("verify s 0 newest out").accepted();
    bench.fed("backup s 0 - --unless-same", &letters("ABCDEFGZ")).accepted().says("the same as version 2");
    bench.fed("backup s 0 -", &letters("AZ")).accepted().says("version 5 kept");
    let json = bench.run("list s 0 --json");
    json.accepted().says("{\"till\": 0, \"oldest\": 1, \"newest\": 5, \"last\": 5, \"versions\": [\n");
    for version in [1, 2, 5] {
        json.says(&format!("{{\"version\": {version}, "));
    }
    assert_eq!(json.out.matches("{\"version\": ").count(), 3);
    assert_eq!(bench.run("retire s 0 --keep 1").accepted().out, "till 0: versions 1 to 2 retired, 1024 bytes\n");
    assert_eq!(bench.run("list s 0").accepted().out.lines().next(), Some("till 0: version 5"));
}

/// With gaps `--keep` and `--rotate` still take the oldest.
#[test]
fn the_oldest_go_first_also_with_gaps() {
    let bench = Bench::with_store("gaps-keep");
    bench.write("image", letters("AB"));
    (0..4).for_each(|_| assert_eq!(bench.run("backup s 0 image").status, Some(0)));
    bench.run("retire s 0 2").accepted();
    bench.run("backup s 0 image").accepted().says("version 5 kept");
    let rotated = "till 0: version 1 retired, 128 bytes\ntill 0: version 6 kept, 128 bytes\n";
    assert_eq!(bench.run("backup s 0 image --rotate").accepted().out, rotated);
    bench.run("retire s 0 4").accepted();
    bench.run("list s 0").accepted().says("till 0: versions 3, 5 to 6\n");
    let retired = bench.run("retire s 0 --keep 1 --json");
    retired.accepted().says("\"retired\": [\n  {\"version\": 3, \"bytes\": 128},\n  {\"version\": 5, \"bytes\": 128}]");
    assert_eq!(bench.run("list s 0").accepted().out.lines().next(), Some("till 0: version 6"));
    (0..3).for_each(|_| assert_eq!(bench.run("backup s 0 image").status, Some(0)));
    bench.run("retire s 0 8").accepted();
    let retired = "till 0: versions 6 to 7, 9 retired, 384 bytes\n";
    assert_eq!(bench.run("retire s 0 --keep 0").accepted().out, retired);
}

/// The chains that `list` reads from the words are those that the library answers.
#[test]
fn chains_are_the_librarys() {
    let bench = Bench::new("chains");
    bench.run("init s --tills 3 --versions 12 --image-bytes 2000 --records 200 --cells 900").accepted();
    let mut random = common::Random(5);
    let mut store = Store::new(Capacities::new(3, 12, 32, 200, 900)).unwrap();
    for _ in 0..30 {
        let image: Vec<u8> = (0..1 + random.below(32)).flat_map(|_| [random.below(9) as u8; 64]).collect();
        let till = random.below(3) as u32;
        let (kept, answer) = (bench.fed(&format!("backup s {till} -"), &image), store.backup(OWNER, till, &image));
        assert_eq!(kept.status == Some(0), answer.is_ok(), "{kept:?}");
        let (till, version) = (random.below(3) as u32, random.below(40) as u32);
        let (gone, answer) = (bench.run(&format!("retire s {till} {version}")), store.retire(OWNER, till, version));
        assert_eq!(gone.status == Some(0), answer.is_ok(), "{gone:?}");
    }
    assert_eq!(bench.read("s"), file_of(store.pool(), store.table()));
    let listed = bench.run("list s --json").out;
    for till in 0..3 {
        let numbers = store.listing(OWNER, till).unwrap();
        for version in numbers.oldest..=numbers.newest {
            let Ok(restored) = store.restore(OWNER, till, version, &mut [0; 2048]) else { continue };
            let (undated, length, hops) = ("\"day\": 0, \"date\": null", restored.length, restored.hops);
            let line = format!("{{\"version\": {version}, {undated}, \"bytes\": {length}, \"chain\": {hops},");
            let part = listed.split("{\"till\": ").find(|part| part.starts_with(&format!("{till},"))).unwrap();
            assert!(part.contains(&line), "till {till}: {line} is not in {part}");
        }
    }
}

#[test]
fn the_demo_is_the_same_every_time_and_leaves_nothing() {
    let bench = Bench::new("demo");
    let play = |bench: &Bench| {
        let output = bench.command("demo").env("TMPDIR", bench.path("")).output().unwrap();
        common::Run::of("demo", output)
    };
    let first = play(&bench);
    first
        .accepted()
        .says("the same, byte for byte")
        .says("version 3 retired")
        .says("version 3 was given and is retired; till 0 holds versions 1 to 2, 4 to 6")
        .says("598,824");
    assert_eq!(first.out, play(&bench).out);
    assert!(bench.names().is_empty(), "{:?}", bench.names());
    let missing = bench.command("demo").env("TMPDIR", bench.path("missing")).output().unwrap();
    common::Run::of("demo", missing).fails(3, &["could not be made for the play"]);
}
