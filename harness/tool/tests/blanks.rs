//! Blank blocks, and a file from before they were known: `before-blanks.lur` was made by the tool when it stored blocks
//! of 255s as it does any others.

mod common;
use common::{file_of, kept_file, letters, salvaged, Bench, Held};
use lurdempos::{Capacities, Store, OWNER};
use twin::Era;

/// What the file was made with: till, image, and the version that was retired after it.
fn history() -> Vec<(u32, Vec<u8>, Option<u32>)> {
    let short = [letters("AB##CD.#"), vec![255; 40]].concat();
    vec![
        (0, letters("AB##CD.#E"), None),
        (1, letters("AB##CD.#"), None),
        (0, letters("####AB"), None),
        (0, short, None),
        (0, letters("X##Y####Z"), Some(3)),
        (1, letters("AB##CD.#########"), None),
    ]
}

/// Each version that it holds.
fn held() -> Vec<Held> {
    let places = [(0, 1, 0), (1, 1, 1), (0, 2, 2), (0, 4, 4), (1, 2, 5)];
    places.map(|(till, version, at)| (till, version, history()[at].1.clone())).into()
}

/// Pool and table as the rule from before makes them.
fn made_before() -> (Vec<u8>, Vec<u32>) {
    let capacities = Capacities::new(2, 6, 16, 12, 64);
    let (mut pool, mut table) = (vec![0; capacities.pool_bytes()], vec![0; capacities.table_words()]);
    twin::lay_out(&mut pool, &mut table, capacities).unwrap();
    for (till, image, retired) in history() {
        twin::backup_by(Era::BeforeBlanks, &mut pool, &mut table, till, &image).unwrap();
        if let Some(version) = retired {
            twin::retire(&mut pool, &mut table, OWNER, till, version).unwrap();
        }
    }
    (pool, table)
}

fn all_come_back(bench: &Bench, held: &[Held]) {
    for (till, version, image) in held {
        let run = bench.run(&format!("restore s {till} {version} -"));
        assert!(run.accepted().bytes == *image, "version {version} of till {till}");
    }
}

/// A step on the tool's file and on the library's store, which are the same after it.
fn backed_up(bench: &Bench, store: &mut Store, held: &mut Vec<Held>, till: u32, image: Vec<u8>) {
    bench.fed(&format!("backup s {till} -"), &image).accepted();
    let version = store.backup(OWNER, till, &image).unwrap();
    held.push((till, version, image));
    assert!(bench.read("s") == file_of(store.pool(), store.table()), "version {version} of till {till}");
    all_come_back(bench, held);
}

#[test]
fn a_file_from_before_is_read() {
    let bench = Bench::new("blanks-read");
    let old = kept_file("before-blanks.lur");
    let (pool, table) = made_before();
    assert!(old == file_of(&pool, &table), "it is what the rule from before makes");
    assert_eq!(pool.chunks(64).filter(|cell| cell.iter().all(|&byte| byte == 255)).count(), 17);
    bench.write("s", &old);
    all_come_back(&bench, &held());
    let listed = "till 0: versions 1 to 2, 4\n  \
                    version   bytes  longest chain  direct  indirect  null  blank\n        \
                          1     576              2       3         5     1      0\n        \
                          2     384              1       2         4     0      0\n        \
                          4     576              0       9         0     0      0\n";
    assert_eq!(bench.run("list s 0").accepted().out, listed);
    for line in ["tally s", "check s", "map s", "list s --json", "export-all s out", "salvage s saved"] {
        bench.run(line).accepted();
        assert!(bench.read("s") == old, "{line} is no change");
    }
    assert_eq!(salvaged(&bench, "saved", &held()), (5, 0));
}

/// Each till's next backup frees the cells of 255s of its previous version, and everything comes back, byte for byte.
#[test]
fn a_file_from_before_goes_on() {
    let bench = Bench::new("blanks-go-on");
    bench.write("s", kept_file("before-blanks.lur"));
    let (pool, table) = made_before();
    let (mut store, mut held) = (Store::from_parts(pool, table).unwrap(), held());
    bench.run("tally s").accepted().says("cells          25 of 64 occupied\n");
    // Six blocks of 255s of version 4 go, and its X, Y and Z stay; Q and R come.
    backed_up(&bench, &mut store, &mut held, 0, letters("QR"));
    bench.run("tally s").accepted().says("cells          21 of 64 occupied\n");
    let listed = "till 0: versions 1 to 2, 4 to 5\n  \
                    version   bytes  longest chain  direct  indirect  null  blank\n        \
                          1     576              2       3         5     1      0\n        \
                          2     384              1       2         4     0      0\n        \
                          4     576              0       3         0     0      6\n        \
                          5     128              0       2         0     0      0\n";
    assert_eq!(bench.run("list s 0").accepted().out, listed);
    backed_up(&bench, &mut store, &mut held, 0, letters("#Q.#R"));
    bench.run("list s 0 --json").accepted().says("\"direct\": 2, \"indirect\": 0, \"null\": 1, \"blank\": 2}");
    backed_up(&bench, &mut store, &mut held, 1, letters("AB##CD.#"));
    backed_up(&bench, &mut store, &mut held, 1, [letters("AB##"), vec![255; 63]].concat());
    bench.run("check s").accepted().says("s: sound, 2 tills x 6 versions");

    // Version 2 goes, and version 1 takes over what it had: pointers to version 4's, which are blank.
    for (till, version) in [(0, 2), (0, 4), (1, 2)] {
        bench.run(&format!("retire s {till} {version}")).accepted();
        store.retire(OWNER, till, version).unwrap();
        held.retain(|one| (one.0, one.1) != (till, version));
        assert!(bench.read("s") == file_of(store.pool(), store.table()));
        all_come_back(&bench, &held);
    }
    bench.run("salvage s saved").accepted().says("6 versions: 6 certain\n");
    assert_eq!(salvaged(&bench, "saved", &held), (6, 0));
    // Nothing of 255s is left but what versions that nobody has backed up after still need.
    bench.run("grow s larger").accepted();
    let grown = bench.read("larger");
    assert!(grown[32..32 + 128 * 64].chunks(64).all(|cell| cell.iter().any(|&byte| byte != 255)));
}

/// Memory that is all erased takes no cell; it is listed, drawn, verified and told apart.
#[test]
fn erased_memory() {
    let bench = Bench::with_store("blanks-erased");
    bench.fed("backup s 0 -", &[255; 1_024]).accepted();
    bench.run("tally s").accepted().says("cells           0 of 64 occupied\nrecords         0 of 8 in use\n");
    bench.fed("backup s 0 -", &letters("A#.#B")).accepted();
    bench.fed("backup s 0 -", &[255; 1_000]).accepted();
    let listed = "till 0: versions 1 to 3\n  \
                    version   bytes  longest chain  direct  indirect  null  blank\n        \
                          1    1024              0       0         0     0     16\n        \
                          2     320              0       2         0     1      2\n        \
                          3    1000              0       1         0     0     15\n";
    assert_eq!(bench.run("list s 0").accepted().out, listed);
    let svg = bench.run("map s").accepted().out.clone();
    // Of the two records in use one has two blank positions, the other seven.
    for words in [">blank: 9 positions<", ">null, of a record in use: 4 positions<", "2 of 8 records in use, 2 whole"] {
        assert!(svg.contains(words), "{words} is not in {svg}");
    }
    bench.write("erased", [255; 1_024]);
    bench.run("verify s 0 1 erased").accepted().says("are the same, 1024 bytes");
    assert_eq!(bench.run("verify s 0 3 erased").status, Some(5));
    assert_eq!(bench.run("diff s 0 1 3").status, Some(5));
    bench.run("salvage s saved").accepted().says("3 versions: 3 certain\n");
    let held = [(0, 1, vec![255; 1_024]), (0, 2, letters("A#.#B")), (0, 3, vec![255; 1_000])];
    assert_eq!(salvaged(&bench, "saved", &held), (3, 0));
}

/// What an image takes is told without its blank blocks.
#[test]
fn need_without_blanks() {
    let bench = Bench::new("blanks-need");
    assert_eq!(bench.run("init s --tills 1 --versions 2 --blocks 16 --records 8 --cells 2").status, Some(0));
    let image = letters("A##B.C##########");
    bench.fed("backup s 0 -", &image).fails(1, &["refused, 16: ", "at least `--records 1 --cells 3`"]);
}
