//! What can still be traced in damaged files.

mod common;
use common::{file_of, form_1_of, kept_file, letters, salvage_at_random, salvage_heads, salvaged, Bench, Held};
use lurdempos::{Capacities, Store, OWNER};

const TEXTS: [(u32, &str); 5] =
    [(0, "ABCDEFGH"), (1, "ABCDEFGHXY"), (0, "ABCDEFGZ"), (1, "AB.#EFGHXY"), (1, "QRSTUVWX.YZ")];

/// Each version held.
fn held() -> Vec<Held> {
    let mut last = [0; 2];
    let mut held = Vec::new();
    for (till, text) in TEXTS {
        last[till as usize] += 1;
        held.push((till, last[till as usize], letters(text)));
    }
    held
}

fn store() -> Store {
    let mut store = Store::new(Capacities::new(2, 4, 16, 16, 256)).unwrap();
    for (till, text) in TEXTS {
        store.backup(OWNER, till, &letters(text)).unwrap();
    }
    store
}

#[test]
fn a_flipped_bit_in_unused_space() {
    let bench = Bench::new("salvage-unused");
    let store = store();
    let (mut pool, table) = (store.pool().to_vec(), store.table());
    pool[64 * 200] ^= 1;
    // In form 1 nothing but the structure can be looked at; in form 2 the checksums make all of it certain.
    let mut bytes = file_of(store.pool(), table);
    bytes[32 + 64 * 200] ^= 1;
    bench.write("old", form_1_of(&pool, table));
    bench.write("s", &bytes);
    bench.run("restore old 0 1 -").fails(1, &["refused, 10", "`lurdempos salvage old FOLDER`"]);
    bench.run("restore s 0 1 -").fails(3, &["damaged: ", "`lurdempos salvage s FOLDER`"]);
    let run = bench.run("salvage s out");
    run.accepted().says("the proof does not cover this").says("5 versions: 5 certain\n");
    run.says("till-1-version-3.img: 704 bytes, certain\n").says("the checksum of bytes 12832 to 13343 does not hold");
    assert_eq!(salvaged(&bench, "out", &held()), (5, 0));
    assert_eq!(bench.read("out/report.txt"), run.bytes);
    let run = bench.run("salvage old out-old");
    assert_eq!((run.status, run.err.as_str()), (Some(5), ""));
    run.says("old: it has no checksums").says("5 versions: 5 unchecked\n");
    for (till, version, image) in held() {
        assert!(bench.read(&format!("out-old/till-{till}-version-{version}.unchecked.img")) == image);
    }
    assert_eq!((bench.read("s"), bench.names().len()), (bytes, 4));
}

#[test]
fn a_sound_store_too() {
    let bench = Bench::new("salvage-sound");
    let store = store();
    bench.write("s", file_of(store.pool(), store.table()));
    bench.run("salvage s out").accepted().says("s: every checksum holds\n").says("5 versions: 5 certain\n");
    assert_eq!(salvaged(&bench, "out", &held()), (5, 0));
    bench.run("salvage s out").fails(3, &["out: exists already"]);
    bench.shell("head -c 19000000 /dev/zero >> s").accepted();
    bench.run("check s").fails(3, &["too long for a store"]);
    bench.run("salvage s lengthened").accepted().says("5 versions: 5 certain\n");
    bench.run("init e --cells 600").accepted();
    bench.run("salvage e none").accepted().says("0 versions\n");
    bench.write("e", kept_file("form1-versions.lur"));
    assert_eq!(bench.run("salvage e six").status, Some(5));
}

/// A damaged cell makes doubtful what is made of its piece, and nothing else.
#[test]
fn doubt_is_where_the_damage_is() {
    let bench = Bench::new("salvage-doubt");
    let store = store();
    let good = file_of(store.pool(), store.table());
    let mut bytes = good.clone();
    let cell = store.pool().chunks(64).position(|cell| cell == [b'Q'; 64]).unwrap();
    bytes[32 + 64 * cell] ^= 16;
    bench.write("s", &bytes);
    let run = bench.run("salvage s out");
    assert_eq!(run.status, Some(5));
    run.says("till-1-version-3.doubtful.img: 704 bytes, doubtful; bytes 0 to ");
    assert!(bench.read("out/till-1-version-3.doubtful.img")[1..] == letters("QRSTUVWX.YZ")[1..]);
    assert_eq!(salvaged(&bench, "out", &held()).0 + salvaged(&bench, "out", &held()).1, 5);
}

/// A pointer, a mask or a number that leads nowhere: what can be traced is there, the rest is told and is zeros.
#[test]
fn what_leads_nowhere_is_told() {
    let bench = Bench::new("salvage-lost");
    let store = store();
    let table_at = 32 + store.pool().len();
    let slot = |till: usize, slot: usize| 8 + till * (4 + 4 * 19) + 4 + slot * 19;
    // Block 1 of version 2 of till 0 points to a record that is none.
    let mut bytes = file_of(store.pool(), store.table());
    bytes[table_at + 4 * (slot(0, 1) + 3 + 1) + 1] = 255;
    bench.write("s", &bytes);
    let run = bench.run("salvage s out");
    assert_eq!(run.status, Some(5));
    run.says("till-0-version-2.incomplete.img: 512 bytes, incomplete; ")
        .says("bytes 64 to 127 could not be traced and are zeros");
}

/// Damage of every kind: the tool ends in order, never alters the file, and never calls certain what is not.
#[test]
fn random_damage() {
    let (bench, store) = (Bench::new("salvage-random"), store());
    let mut met = [0; 3];
    salvage_at_random(&bench, &file_of(store.pool(), store.table()), 3, 150, |run, folder| {
        if run.status == Some(3) {
            assert_eq!(bench.names(), ["s"], "{run:?}");
            met[2] += 1;
            return;
        }
        let (certain, others) = salvaged(&bench, folder, &held());
        let lost = run.out.contains("may be lost") || run.out.contains("no checksums");
        assert!((run.status == Some(0)) == (others == 0 && !lost), "{run:?}");
        // What is neither there nor told to be in doubt was not there.
        assert!(lost || certain + others == 5, "{run:?}");
        met[0] += certain;
        met[1] += others;
    });
    println!("{} images certain, {} not, {} files without a trace", met[0], met[1], met[2]);
    assert!(met[0] > 100 && met[1] > 30, "{met:?}");
}

/// A damaged header that fits the lengths is not the right one for that: nothing is certain then.
#[test]
fn a_header_that_fits_too() {
    let bench = Bench::new("salvage-header");
    let store = store();
    let good = file_of(store.pool(), store.table());
    let header = 32 + store.pool().len();
    // 8 versions and 8 records take as many words as 4 versions and 16 records. Four bits have flipped.
    for (versions, records) in [(4, 16), (8, 8)] {
        let mut bytes = good.clone();
        bytes[header + 4] = versions;
        bytes[header + 12] = records;
        bench.write("s", &bytes);
        let run = bench.run(&format!("salvage s out{versions}"));
        assert_eq!(run.status, Some(if bytes == good { 0 } else { 5 }), "{run:?}");
        let (certain, _) = salvaged(&bench, &format!("out{versions}"), &held());
        assert_eq!(certain, if bytes == good { 5 } else { 0 }, "{run:?}");
    }
}

/// Versions of which nothing is left are not passed over in silence.
#[test]
fn lost_versions_are_told() {
    let bench = Bench::new("salvage-nothing");
    let store = store();
    let mut bytes = file_of(store.pool(), store.table());
    let table_at = 32 + store.pool().len();
    // Till 1's own words and all its slots.
    bytes[table_at + 4 * 88..table_at + 4 * 168].fill(0);
    bench.write("s", &bytes);
    let run = bench.run("salvage s out");
    assert_eq!(run.status, Some(5));
    run.says("till 1: further versions of it may be lost\n");
    assert!(!run.out.contains("till-1"), "{run:?}");
    bench.run("salvage s out2 --json").says("\"tills_in_doubt\": [0, 1]}");
}

/// One flipped bit in the head or in the table's header: the lengths tell what it was.
#[test]
fn damaged_capacities_are_worked_out() {
    let (bench, store) = (Bench::new("salvage-head"), store());
    salvage_heads(&bench, &file_of(store.pool(), store.table()), |run, folder, at| {
        run.says("5 versions: ");
        assert_eq!(salvaged(&bench, folder, &held()), if at < 32 { (5, 0) } else { (0, 5) }, "byte {at}");
    });
}
