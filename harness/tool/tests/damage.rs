//! Random damage: the tool never crashes, and never alters a file that it could not read.

mod common;
use common::{letters, Bench, Random};

const ROUNDS: usize = 150;

/// Changes bytes here and there, cuts, lengthens, or makes all anew.
fn damaged(bytes: &[u8], random: &mut Random) -> Vec<u8> {
    let mut bytes = bytes.to_vec();
    let any = |random: &mut Random| random.next() as u8;
    match random.below(9) {
        0..=2 => (0..1 + random.below(3)).for_each(|_| {
            let at = random.below(bytes.len());
            bytes[at] ^= 1 << random.below(8);
        }),
        3 => (0..1 + random.below(200)).for_each(|_| {
            let at = random.below(bytes.len());
            bytes[at] = any(random);
        }),
        4 => bytes.truncate(random.below(bytes.len() + 1)),
        5 => (0..1 + random.below(100)).for_each(|_| bytes.push(any(random))),
        6 => {
            let at = random.below(32);
            bytes[at] = any(random);
        }
        7 => {
            let (from, to) = (random.below(bytes.len()), random.below(bytes.len()));
            let length = random.below(bytes.len() - from.max(to));
            bytes.copy_within(from..from + length, to);
        }
        _ => bytes = (0..random.below(6_000)).map(|_| any(random)).collect(),
    }
    bytes
}

/// Readers first, then calls that change a sound store.
const LINES: [&str; 10] = [
    "list s",
    "tally s --json",
    "bill s --price 25",
    "map s",
    "restore s 0 1 out",
    "restore s 1 2 -",
    "list s 1 --json",
    "map s --output out",
    "retire s 0 1",
    "backup s 1 image",
];

fn put_to_the_test(bench: &Bench, bytes: &[u8]) -> bool {
    bench.write("s", bytes);
    let verdict = bench.run("check s");
    assert!(matches!(verdict.status, Some(0 | 1 | 3)), "{verdict:?}");
    for line in LINES {
        let run = bench.run(line);
        if verdict.status == Some(0) {
            assert!(matches!(run.status, Some(0 | 1)), "{run:?}");
        } else {
            assert_eq!((run.status, &run.err), (verdict.status, &verdict.err));
            assert!(bench.read("s") == bytes, "{line} altered a file that it could not read");
        }
    }
    assert!(!bench.names().iter().any(|name| name.ends_with("-new")), "{:?}", bench.names());
    verdict.status == Some(0)
}

fn random_damage(seed: u64) {
    let bench = Bench::with_store(&format!("damage-{seed}"));
    for (till, text) in [(0, "ABCDEFGH"), (1, "ABCDEFGHXY"), (0, "ABCDEFGZ"), (1, "AB.DEFGHXY"), (1, "QRSTUVWX.YZ")] {
        bench.fed(&format!("backup s {till} -"), &letters(text)).accepted();
    }
    bench.write("image", letters("ABCDEFGHIJ"));
    let good = bench.read("s");
    let mut random = Random(seed);
    let sound = (0..ROUNDS).filter(|_| put_to_the_test(&bench, &damaged(&good, &mut random))).count();
    println!("{sound} of {ROUNDS} are still sound stores");
}

#[test]
fn random_damage_one() {
    random_damage(2026);
}

#[test]
fn random_damage_two() {
    random_damage(7);
}

/// Single bits that flip: none leaves a store that hands out another image.
#[test]
fn flipped_bits_are_found() {
    let bench = Bench::with_store("flips");
    let images = [(0, "ABCDEFGH"), (1, "ABCDEFGHXY"), (0, "ABCDEFGZ"), (1, "AB.DEFGHXY"), (1, "QRSTUVWX.YZ")];
    images
        .iter()
        .for_each(|(till, text)| assert_eq!(bench.fed(&format!("backup s {till} -"), &letters(text)).status, Some(0)));
    let versions = [(0, 1, 0), (0, 2, 2), (1, 1, 1), (1, 2, 3), (1, 3, 4)];
    let good = bench.read("s");
    let mut random = Random(14);
    let (mut wrong, mut unnoticed) = (0, 0);
    for n in 0..2_000 {
        let mut bytes = good.clone();
        let bit = random.below(8 * bytes.len());
        bytes[bit / 8] ^= 1 << (bit % 8);
        bench.write("s", &bytes);
        let (till, version, at) = versions[n % versions.len()];
        let restored = bench.run(&format!("restore s {till} {version} -"));
        wrong += usize::from(restored.status == Some(0) && restored.bytes != letters(images[at].1));
        unnoticed += usize::from(restored.status != Some(3) || !restored.err.starts_with("lurdempos: s: "));
        assert!(bench.read("s") == bytes);
    }
    assert_eq!((wrong, unnoticed), (0, 0), "of 2,000 flipped bits");
}

/// What is said about it, by every command, and that nothing is altered.
#[test]
fn damage_is_told_clearly() {
    let bench = Bench::with_store("told");
    bench.fed("backup s 0 -", &letters("ABCDEFGH")).accepted();
    bench.write("image", letters("ABCDEFGHIJ"));
    let mut bytes = bench.read("s");
    bytes[32 + 70] ^= 1; // in an occupied cell, which soundness cannot see
    bench.write("s", &bytes);
    let words =
        ["damaged: the checksum of bytes 32 to 543 does not hold; nothing was altered", "fetch the newest copy"];
    for line in LINES.into_iter().chain(["check s", "verify s 0 1 image", "diff s 0 1 1", "export-all s f", "grow s g"])
    {
        let run = bench.run(line);
        run.fails(3, &words).fails(3, &["`lurdempos salvage s FOLDER`"]);
        assert!(bench.read("s") == bytes && bench.names() == ["image", "s"], "{line}");
    }
    bytes[32 + 70] ^= 1;
    let last = bytes.len() - 1; // a checksum itself
    bytes[last] ^= 128;
    bytes[4096] ^= 2;
    bench.write("s", &bytes);
    bench.run("check s").fails(3, &["damaged: 2 checksums do not hold, the first of bytes 3616 to 4127"]);
}
