//! Each refusal that the tool can meet: its number, its words, what to do, exit status 1, and nothing altered.

mod common;
use common::{file_of, form_1_of, letters, refused, Bench};
use lurdempos::{Capacities, Store, OWNER};

#[test]
fn capacities_1() {
    let bench = Bench::new("refusal-1");
    let out_of_range = [
        ("--tills 0", "--tills 0, but 1 to 16"),
        ("--tills 17", "--tills 17, but 1 to 16"),
        ("--versions 0", "--versions 0, but 1 to 64"),
        ("--versions 65", "--versions 65, but 1 to 64"),
        ("--blocks 0", "--blocks 0, but 1 to 1024"),
        ("--blocks 1025", "--blocks 1025, but 1 to 1024"),
        ("--image-bytes 0", "--image-bytes 0, but 1 to 65536"),
        ("--image-bytes 65537", "--image-bytes 65537, but 1 to 65536"),
        ("--records 0", "--records 0, but 1 to 4096"),
        ("--records 4097", "--records 4097, but 1 to 4096"),
        ("--cells 0", "--cells 0, but 1 to 32768"),
        ("--cells 4294967295", "--cells 4294967295, but 1 to 32768"),
        ("--image-bytes 4294967295", "--image-bytes 4294967295, but 1 to 65536"),
        ("--block-bytes 0", "--block-bytes 0, but 64, 128, 256 or 512 can be had"),
        ("--block-bytes 96", "--block-bytes 96, but 64, 128, 256 or 512 can be had"),
        ("--block-bytes 1024 --image-bytes 9", "--block-bytes 1024, but 64, 128, 256 or 512 can be had"),
        ("--block-bytes 512 --blocks 129", "--blocks 129, but 1 to 128"),
        ("--block-bytes 256 --image-bytes 65537", "--image-bytes 65537, but 1 to 65536"),
        ("--segment-blocks 0", "--segment-blocks 0, but 4, 8 or 16 can be had"),
        ("--segment-blocks 5 --tills 17", "--segment-blocks 5, but 4, 8 or 16 can be had"),
        ("--rebuild-percent 101", "--rebuild-percent 101, but 0 to 100 can be had"),
        ("--rebuild-percent 4294967295", "--rebuild-percent 4294967295, but 0 to 100"),
    ];
    for (option, words) in out_of_range {
        refused(&bench, &format!("init s {option}"), 1, &[words, "choose each from its range"]);
    }
    assert!(bench.names().is_empty());
}

#[test]
fn tills_3() {
    let bench = Bench::with_store("refusal-3");
    bench.write("image", "x");
    for line in ["backup s 2 image", "restore s 2 1 out", "retire s 2 1", "list s 2", "list s 2 --json"] {
        refused(&bench, line, 3, &["there is no till 2, this store has tills 0 to 1", "lurdempos list s"]);
    }
    refused(&bench, "list s 4294967295", 3, &["there is no till 4294967295"]);
    bench.run("init one --tills 1 --cells 2 --blocks 2").accepted();
    refused(&bench, "list one 1", 3, &["this store has till 0 alone"]);
}

#[test]
fn images_4() {
    let bench = Bench::with_store("refusal-4");
    bench.write("empty", "");
    bench.write("long", [1; 1025]);
    bench.write("huge", vec![1; 300_000]);
    refused(&bench, "backup s 0 empty", 4, &["the image has 0 bytes, this store takes 1 to 1024", "--image-bytes"]);
    refused(&bench, "backup s 0 long", 4, &["the image has 1025 bytes"]);
    refused(&bench, "backup s 0 huge", 4, &["the image has more than 65536 bytes"]);
    refused(&bench, "backup s 0 /dev/zero", 4, &["the image has more than 65536 bytes"]);
    bench.fed("backup s 0 -", &[]).fails(1, &["refused, 4: "]);
    bench.fed("backup s 0 -", &[1; 1025]).fails(1, &["refused, 4: "]);
    bench.fed("backup s 0 -", &[1; 1024]).accepted();
}

#[test]
fn full_tills_11() {
    let bench = Bench::with_store("refusal-11");
    bench.write("image", letters("A"));
    (0..4).for_each(|_| assert_eq!(bench.run("backup s 1 image").status, Some(0)));
    refused(&bench, "backup s 1 image", 11, &["till 1 holds 4 already", "`lurdempos retire s 1 1`"]);
    bench.run("retire s 1 1").accepted();
    bench.run("backup s 1 image").accepted().says("version 5 kept");
    refused(&bench, "backup s 1 image", 11, &["`lurdempos retire s 1 2`"]);
    std::fs::copy(bench.path("s"), bench.path("it's")).unwrap();
    refused(&bench, "backup it's 1 image", 11, &[r"`lurdempos retire 'it'\''s' 1 2`"]);
}

#[test]
fn spent_numbers_12() {
    let bench = Bench::new("refusal-12");
    let (pool, mut table) = Store::new(Capacities::new(1, 2, 1, 1, 1)).unwrap().into_parts();
    table[8] = 65_535;
    bench.write("s", file_of(&pool, &table));
    bench.write("image", "x");
    bench.run("check s").accepted();
    refused(&bench, "backup s 0 image", 12, &["till 0 can give no number after 65535", "go on in a new store"]);
    bench.run("list s").accepted().says("till 0: no version held, the last was 65535");
}

/// Every line that names this version of till 0.
fn naming(version: u32) -> Vec<String> {
    let lines = ["restore s 0 V out", "restore s 0 V -", "retire s 0 V", "retire s 0 V --dry-run", "export s 0 V out"];
    let lines = lines.into_iter().chain(["export s 0 V -", "verify s 0 V image", "diff s 0 V 3", "diff s 0 newest V"]);
    lines.map(|line| line.replace('V', &version.to_string())).collect()
}

#[test]
fn numbers_never_given_17() {
    let bench = Bench::with_store("refusal-17");
    bench.write("image", letters("A"));
    let none = "till 0 holds no version, and has given no number yet";
    for line in ["retire s 0 1", "restore s 0 1 out", "restore s 0 0 out", "restore s 0 newest out", "diff s 0 1 2"] {
        refused(&bench, line, 17, &[none, "see what is held with `lurdempos list s`."]);
    }
    bench.run("backup s 0 image").accepted();
    let alone = "2 was never given, the last number of till 0 is 1; it holds version 1 alone";
    refused(&bench, "retire s 0 2", 17, &[alone, "`lurdempos list s 0`"]);
    bench.run("backup s 0 image").accepted();
    bench.run("backup s 0 image").accepted();
    for version in [0, 4, 65_535, 65_536, u32::MAX] {
        let here =
            format!("Here: {version} was never given, the last number of till 0 is 3; it holds versions 1 to 3.\n");
        let advice = "What to do: the number is mistyped: choose one that `lurdempos list s 0` shows.\n";
        naming(version).iter().for_each(|line| refused(&bench, line, 17, &[&here, advice]));
    }
    bench.write("out", "an old output");
    refused(&bench, "restore s 1 1 out", 17, &["till 1 holds no version, and has given no number yet"]);
    // Once all are retired there is no newest, and a number may still be mistyped.
    bench.run("retire s 0 --keep 0").accepted();
    let gone = "till 0 holds no version; all up to its last number, 3, are retired";
    refused(&bench, "restore s 0 newest out", 17, &[gone, "see what is held with `lurdempos list s`."]);
    let mistyped = ["4 was never given, the last number of till 0 is 3; it holds no version", "is mistyped: see what"];
    refused(&bench, "restore s 0 4 out", 17, &mistyped);
}

#[test]
fn versions_no_longer_held_18() {
    let bench = Bench::with_store("refusal-18");
    bench.write("image", letters("A"));
    (0..4).for_each(|_| assert_eq!(bench.run("backup s 0 image").status, Some(0)));
    // In a gap, then just below the oldest, then the last given.
    let steps = [(2, "versions 1, 3 to 4"), (1, "versions 3 to 4"), (4, "version 3 alone")];
    for (version, held) in steps {
        bench.run(&format!("retire s 0 {version}")).accepted();
        let here = format!("Here: version {version} was given and is retired; till 0 holds {held}.\n");
        let advice = "What to do: choose one that `lurdempos list s 0` shows; a retired version is in older copies";
        naming(version).iter().for_each(|line| refused(&bench, line, 18, &[&here, advice]));
    }
    refused(&bench, "restore s 0 5 out", 17, &["5 was never given, the last number of till 0 is 4"]);
    bench.run("retire s 0 3").accepted();
    let words = ["version 4 was given and is retired; till 0 holds no version", "`lurdempos list s`;"];
    refused(&bench, "restore s 0 4 out", 18, &words);
}

#[test]
fn no_record_14_and_no_run_16() {
    let bench = Bench::new("refusal-14");
    bench.run("init records --tills 1 --blocks 8 --records 1 --cells 64").accepted();
    bench.run("init cells --tills 1 --blocks 8 --records 8 --cells 9").accepted();
    bench.fed("backup records 0 -", &letters("AB")).accepted();
    bench.fed("backup cells 0 -", &letters("AB")).accepted();
    bench.write("image", letters("CDEFGHIJ"));
    let advice = ["retire the oldest versions", "does not fit beside the others"];
    refused(&bench, "backup records 0 image", 14, &["store's 1 segment record", "grow records NEW --records N"]);
    refused(&bench, "backup cells 0 image", 16, &["store's 9 cells", "grow cells NEW --cells N"]);
    refused(&bench, "backup cells 0 image", 16, &advice);
    // 32 images of 1,024 different blocks take all records that a store can have.
    bench.run("init largest --versions 3 --blocks 1024").accepted();
    let image = |n: u32| (0..1024).flat_map(|block| [(n * 1024 + block + 1).to_le_bytes(); 16].concat()).collect();
    for n in 0..32u32 {
        let image: Vec<u8> = image(n);
        bench.fed(&format!("backup largest {} -", n % 16), &image).accepted();
    }
    let image: Vec<u8> = image(32);
    bench.write("image", image);
    refused(
        &bench,
        "backup largest 0 image",
        14,
        &["go on in a second store: this one has as many as a store can have"],
    );
}

/// In an empty store there is nothing to retire: it says so, and what the image takes.
#[test]
fn no_room_in_an_empty_store() {
    let bench = Bench::new("refusal-16-empty");
    let warned = bench.run("init cells --tills 1 --blocks 16 --records 8 --cells 9");
    assert!(warned.status == Some(0) && warned.err.contains("not even one image of 1024 bytes"), "{warned:?}");
    let warned = bench.run("init records --tills 1 --blocks 16 --records 1 --cells 64");
    assert!(warned.err.contains("it takes 2 records and 16 cells"), "{warned:?}");
    // Two segments; a block of zeros takes nothing, and the second comes again.
    bench.write("image", letters("ABCDEFG.HIJKLMNO"));
    let advice = "`--records 2 --cells 15`, which this image takes";
    let alone = "even when the store is empty, this image alone takes more than its";
    refused(&bench, "backup cells 0 image", 16, &[&format!("{alone} 9 cells."), advice]);
    refused(&bench, "backup records 0 image", 14, &[&format!("{alone} 1 segment record."), advice]);
    // The same if it is not empty: a version of zeros takes no cell, and one that would make room is still held.
    bench.fed("backup cells 0 -", &letters("..")).accepted();
    refused(&bench, "backup cells 0 image", 16, &[&format!("{alone} 9 cells."), advice]);
    assert_eq!(bench.run("init one --tills 1 --versions 1 --blocks 16 --records 8 --cells 9").status, Some(0));
    bench.fed("backup one 0 -", &letters("A")).accepted();
    refused(&bench, "backup one 0 image --rotate", 16, &[&format!("{alone} 9 cells."), advice]);
    bench.run("init enough --tills 1 --blocks 16 --records 2 --cells 15");
    bench.run("backup enough 0 image").accepted();
}

#[test]
fn unsound_10() {
    let bench = Bench::with_store("refusal-10");
    bench.fed("backup s 0 -", &letters("ABC")).accepted();
    bench.write("image", "x");
    let (mut pool, table) = {
        let mut store = Store::new(Capacities::new(2, 4, 16, 8, 64)).unwrap();
        store.backup(OWNER, 0, &letters("ABC")).unwrap();
        store.into_parts()
    };
    assert_eq!(bench.read("s"), file_of(&pool, &table));
    pool[64 * 60] = 1; // a free cell that is not zero
    bench.write("s", file_of(&pool, &table));
    bench.write("old", form_1_of(&pool, &table));
    let lines =
        ["backup s 0 image", "restore s 0 1 out", "restore s 0 1 -", "retire s 0 1", "list s", "list s 0 --json"];
    for line in
        lines.into_iter().chain(["tally s", "bill s --price 10001", "check s", "map s", "map s --output m", "list s 9"])
    {
        refused(&bench, line, 10, &["pool and table are not a sound store", "s has been damaged", "lurdempos check"]);
    }
    refused(&bench, "check old", 10, &["old has been damaged", "lurdempos salvage old FOLDER"]);
    assert_eq!(bench.names(), ["image", "old", "s"]);
}
