//! Files that are no stores: clear words, exit status 3, nothing altered, nothing left behind.

mod common;
use common::{file_of, form_1_of, letters, Bench};
use lurdempos::{Capacities, Store, OWNER};
use std::fs;

/// Every command on the file `s`.
const LINES: [&str; 32] = [
    "backup s 0 image",
    "backup s 0 -",
    "restore s 0 1 out",
    "restore s 0 1 -",
    "backup s 0 image --dry-run",
    "closing s 0=image 1=image",
    "closing s 0=-",
    "closing s 0=image --dry-run",
    "retire s 0 1",
    "retire s 0 --keep 1",
    "verify s 0 1 image",
    "verify s 0 newest -",
    "diff s 0 1 2",
    "export s 0 1 out",
    "export s 0 1 -",
    "fingerprints s image out",
    "offer s 0 image out",
    "offer s 0 - -",
    "sent s image image out",
    "backup-sent s 0 image",
    "backup-sent s 0 -",
    "backup-sent s 0 image --dry-run",
    "export-all s out",
    "grow s out",
    "list s",
    "list s 0 --json",
    "tally s",
    "tally s --json",
    "bill s --price 25",
    "check s",
    "map s",
    "map s --output out",
];

fn cannot_be_read(bytes: &[u8], words: &str) {
    let bench = Bench::new(&format!("bad-{}", words.replace(|c: char| !c.is_alphanumeric(), "-")));
    bench.write("image", "x");
    bench.write("s", bytes);
    for line in LINES {
        bench.run(line).fails(3, &["lurdempos: s: ", words]);
        assert!(bench.read("s") == bytes, "{line} altered the file");
        assert_eq!(bench.names(), ["image", "s"], "{line}");
    }
}

fn good() -> Vec<u8> {
    let mut store = Store::new(Capacities::new(2, 4, 16, 8, 64)).unwrap();
    store.backup(OWNER, 0, &letters("ABCDEFGH")).unwrap();
    file_of(store.pool(), store.table())
}

#[test]
fn too_short() {
    cannot_be_read(b"", "too short for a store: it has 0 bytes");
    cannot_be_read(&good()[..31], "too short for a store: it has 31 bytes");
}

#[test]
fn wrong_magic() {
    cannot_be_read(&[b'x'; 5_000], "it does not begin with the magic");
    let mut bytes = good();
    bytes[11] ^= 1;
    cannot_be_read(&bytes, "not a store's file");
}

#[test]
fn another_form() {
    let mut bytes = good();
    bytes[12] = 3;
    cannot_be_read(&bytes, "a store's file of form 3; this tool reads forms 1 and 2");
    bytes[12] = 0;
    cannot_be_read(&bytes, "a store's file of form 0");
}

#[test]
fn lengths_that_do_not_fit() {
    let bytes = good();
    let needed = format!("by its head it has {} bytes, but it has", bytes.len());
    cannot_be_read(&bytes[..bytes.len() - 1], &format!("{needed} {}", bytes.len() - 1));
    cannot_be_read(&[&bytes[..], b"\0"].concat(), &format!("{needed} {}", bytes.len() + 1));
    cannot_be_read(&bytes[..32], &format!("{needed} 32"));
    for (at, most) in [(16, u64::MAX), (24, u64::MAX), (16, 1 << 62), (24, 1 << 62), (16, 16_777_217), (24, 1_195_081)]
    {
        let mut bytes = bytes.clone();
        bytes[at..at + 8].copy_from_slice(&most.to_le_bytes());
        cannot_be_read(&bytes, "its lengths do not fit: no store has a pool of");
    }
    // There are such pools and such tables, but not in one store: blocks are large or many.
    let mut both = good();
    both[16..24].copy_from_slice(&16_777_216u64.to_le_bytes());
    both[24..32].copy_from_slice(&1_195_080u64.to_le_bytes());
    cannot_be_read(&both, "no store has a pool of 16777216 bytes and a table of 1195080 words");
    let mut bytes = good();
    bytes[16..24].copy_from_slice(&16_777_216u64.to_le_bytes());
    cannot_be_read(&bytes, "its lengths do not fit: by its head");
}

/// Nothing is allocated for a file of a terabyte.
#[test]
fn absurdly_long() {
    let bench = Bench::new("bad-long");
    bench.write("s", good());
    fs::OpenOptions::new().write(true).open(bench.path("s")).unwrap().set_len(1 << 40).unwrap();
    bench.write("image", "x");
    for line in LINES {
        bench.run(line).fails(3, &["too long for a store: it has 1099511627776 bytes"]);
    }
    assert_eq!((fs::metadata(bench.path("s")).unwrap().len(), bench.names().len()), (1 << 40, 2));
}

/// A pool or a table of another length than the capacities in the table need is for the store to refuse.
#[test]
fn parts_of_other_lengths_are_unsound() {
    let bench = Bench::new("bad-parts");
    let (pool, table) = Store::new(Capacities::new(2, 4, 16, 8, 64)).unwrap().into_parts();
    let stores = [
        file_of(&[], &[]),
        file_of(&pool, &[]),
        file_of(&[], &table),
        file_of(&pool[64..], &table),
        file_of(&pool[1..], &table),
        file_of(&pool, &table[1..]),
        file_of(&pool, &table[..7]),
        form_1_of(&vec![0; 2_097_152], &vec![0; 1_129_544]),
        file_of(&vec![255; 2_097_152], &vec![u32::MAX; 1_129_544]),
    ];
    bench.write("image", "x");
    for bytes in stores {
        bench.write("s", &bytes);
        for line in LINES {
            bench.run(line).fails(1, &["refused, 10: pool and table are not a sound store"]);
        }
        assert!(bench.read("s") == bytes);
    }
    assert_eq!(bench.names(), ["image", "s"]);
}

#[test]
fn no_regular_file() {
    let bench = Bench::new("bad-kind");
    bench.write("image", "x");
    for line in LINES {
        bench.run(line).fails(3, &["s: cannot be read: No such file"]);
    }
    assert_eq!(bench.names(), ["image"]);
    fs::create_dir(bench.path("s")).unwrap();
    for line in LINES {
        bench.run(line).fails(3, &["s: not a regular file"]);
    }
    fs::remove_dir(bench.path("s")).unwrap();
    bench.shell("mkfifo s").accepted();
    for line in LINES {
        bench.run(line).fails(3, &["s: not a regular file"]);
    }
    bench.run("check /dev/zero").fails(3, &["/dev/zero: not a regular file"]);
    bench.run("check image/s").fails(3, &["cannot be read"]);
    bench.run("init image/s").fails(3, &["image/s: "]);
    bench.run("init missing/s").fails(3, &["missing/s: its folder cannot be used"]);
    bench.run("init new/").fails(3, &["new/: names no file"]);
    assert_eq!(bench.names(), ["image", "s"]);
}
