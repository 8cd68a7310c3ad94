//! A till played by hand: `fingerprints` and `sent` for its part, `offer` and `backup-sent` for the store's.

mod common;
use common::{letters, Bench};
use lurdempos::{sending, Capacities, Sending};
use std::fs;

/// The measures of the store `s`.
const CAPACITIES: Capacities = Capacities::new(2, 4, 16, 8, 64);

/// The store `s` with a version of till 0, of which the next image has the first segment.
fn with_version(name: &str) -> Bench {
    let bench = Bench::with_store(name);
    bench.write("first", letters("ABCDEFGHij"));
    bench.run("backup s 0 first").accepted();
    bench.write("image", &letters("ABCDEFGHkl")[..600]);
    bench
}

#[test]
fn through_files() {
    let bench = with_version("lacking-files");
    bench.run("fingerprints s image prints").accepted().says("image: 2 fingerprints written to prints\n");
    assert_eq!(bench.read("prints"), sending(&bench.read("image"), CAPACITIES).fingerprints);
    let before = bench.read("s");
    let run = bench.run("offer s 1 prints marks");
    run.accepted().says("till 1: the store has 1 of 2 segments, marked in marks\n");
    assert_eq!((bench.read("marks"), bench.read("s")), (vec![1, 0], before));
    let run = bench.run("sent s image marks message");
    run.accepted().says("image: 1 of 2 segments written to message, a message of 558 bytes\n");
    assert_eq!(bench.read("message"), sending(&bench.read("image"), CAPACITIES).lacking(&[1, 0]).to_bytes());
    let run = bench.run("backup-sent s 1 message --dry-run");
    run.accepted().says("till 1: version 1 would be kept, 600 bytes, 1 of 2 segments sent; cells 10 before, 12 after");
    let run = bench.run("backup-sent s 1 message");
    assert_eq!(run.accepted().out, "till 1: version 1 kept, 600 bytes, 1 of 2 segments sent\n");
    assert_eq!(bench.run("restore s 1 1 -").accepted().bytes, bench.read("image"));
    assert_eq!((bench.mode("message"), bench.mode("marks")), (bench.mode("s"), bench.mode("s")));
    assert!(bench.drafts().is_empty());
}

/// The same file as a backup of the whole image leaves.
#[test]
fn as_a_backup() {
    let bench = with_version("lacking-same");
    bench.write("full", bench.read("s"));
    bench.run("backup full 0 image").accepted();
    let line = "lurdempos fingerprints s image - | lurdempos offer s 0 - - | lurdempos sent s image - - | \
                lurdempos backup-sent s 0 -";
    assert_eq!(bench.shell(line).accepted().out, "till 0: version 2 kept, 600 bytes, 1 of 2 segments sent\n");
    assert_eq!(bench.read("s"), bench.read("full"));
    // Nothing of an image that is there is sent again, nor zeros, nor a segment twice.
    bench.write("image", letters("........ABCDEFGH"));
    bench.shell(line).accepted().says("version 3 kept, 1024 bytes, 0 of 2 segments sent\n");
    bench.write("image", letters("opqrstuvopqrstuv"));
    bench.shell(line).accepted().says("version 4 kept, 1024 bytes, 1 of 2 segments sent\n");
    assert_eq!(bench.run("restore s 0 4 -").accepted().bytes, letters("opqrstuvopqrstuv"));
}

/// The example of docs/FORMAT.md.
#[test]
fn as_the_format_shows() {
    let bench = Bench::with_store("lacking-format");
    bench.write("image", [&[12; 512][..], &[11]].concat());
    bench.fed("backup s 0 -", &[12; 512]).accepted();
    let line = "lurdempos fingerprints s image - | tee prints | lurdempos offer s 0 - - | tee marks | \
                lurdempos sent s image - message";
    bench.shell(line).accepted();
    let page = fs::read_to_string(concat!(env!("CARGO_MANIFEST_DIR"), "/../../docs/FORMAT.md")).unwrap();
    let shows = |bytes: &[u8], what: &str| {
        let digits: Vec<String> = bytes.iter().map(|byte| format!("{byte:02x}")).collect();
        let (first, last) = (digits[..4].join(" "), digits[bytes.len() - 2..].join(" "));
        let row = format!("    {first} ... {last}    {what}\n");
        assert!(page.contains(&row), "{row}");
    };
    let (prints, message) = (bench.read("prints"), bench.read("message"));
    shows(&prints[..20], "20 bytes: 512 times 12");
    shows(&prints[20..], "20 bytes: an 11 and 511 zeros");
    assert_eq!((bench.read("marks"), message.len()), (vec![1, 0], 4 + 40 + 2 + 512));
    assert_eq!(
        (&message[..4], &message[4..44], &message[44..48]),
        (&[1, 2, 0, 0][..], &prints[..], &[0, 1, 11, 0][..])
    );
}

#[test]
fn in_other_measures() {
    let bench = Bench::new("lacking-measures");
    let measures = "--block-bytes 512 --segment-blocks 16 --image-bytes 65536";
    bench.run(&format!("init s {measures} --tills 1 --records 32 --cells 256")).accepted();
    bench.write("image", (0..40_000u32).map(|n| (n * n % 251) as u8).collect::<Vec<u8>>());
    bench.run("fingerprints s image prints").accepted().says("5 fingerprints");
    bench.run("offer s 0 prints marks").accepted().says("has 0 of 5");
    let run = bench.run("sent s image marks message");
    run.accepted().says("5 of 5 segments written to message, a message of 41069 bytes");
    bench.run("backup-sent s 0 message").accepted().says("version 1 kept, 40000 bytes, 5 of 5 segments sent");
    bench.run("offer s 0 prints marks").accepted().says("has 5 of 5");
    assert_eq!(bench.run("restore s 0 1 -").accepted().bytes, bench.read("image"));
}

#[test]
fn for_programs() {
    let bench = with_version("lacking-json");
    let told = |line: &str| bench.run(&format!("{line} --json")).accepted().out.trim_end().to_string();
    let image = r#"{"file": "s", "image": "image", "output": "#;
    let expected = format!(r#"{image}"prints", "bytes": 600, "segments": 2, "segment_bytes": 512}}"#);
    assert_eq!(told("fingerprints s image prints"), expected);
    let expected = r#"{"file": "s", "till": 1, "output": "marks", "segments": 2, "had": 1}"#;
    assert_eq!(told("offer s 1 prints marks"), expected);
    let expected = format!(r#"{image}"message", "bytes": 600, "segments": 2, "sent": 1, "message_bytes": 558}}"#);
    assert_eq!(told("sent s image marks message"), expected);
    let kept = r#"{"file": "s", "till": 1, "version": 1, "bytes": 600, "segments": 2, "sent": 1, "#;
    let expected = format!(r#"{kept}"message_bytes": 558, "dry_run": false, "cells": null}}"#);
    assert_eq!(told("backup-sent s 1 message"), expected);
}

/// Refused with this number, these words and what to do, from the file `in` and from a pipe; the store stays as it is,
/// and there is no output.
fn refused(bench: &Bench, [before_input, after_input]: [&str; 2], input: &[u8], number: u32, words: &str) {
    let before = bench.read("s");
    bench.write("in", input);
    let line = |name: &str| format!("{before_input} {name} {after_input}");
    for run in [bench.run(&line("in")), bench.fed(&line("-"), input)] {
        run.fails(1, &[&format!("lurdempos: refused, {number}: "), words, "Here: ", "What to do: "]);
    }
    assert!(bench.read("s") == before);
    assert!(!bench.names().contains(&"out".to_string()));
}

#[test]
fn offers_that_are_refused() {
    let bench = with_version("lacking-offers");
    let prints = sending(&bench.read("image"), CAPACITIES).fingerprints;
    let refused = |till: u32, prints: &[u8], number: u32, words: &str| {
        refused(&bench, [&format!("offer s {till}"), "out"], prints, number, words);
    };
    refused(2, &prints, 3, "there is no till 2");
    refused(0, &[], 4, "nothing came from ");
    refused(0, &prints[..39], 4, " has 39 bytes; there are 20 for each 512 of an image, 1 to 2 times");
    refused(0, &[7; 60], 4, " has 60 bytes; ");
    refused(0, &[7; 9_000], 4, " has more than 5120 bytes; ");
    refused(0, &[7; 41], 4, "`lurdempos fingerprints s IMAGE OUT`");
}

#[test]
fn messages_that_are_refused() {
    let bench = with_version("lacking-messages");
    let whole = sending(&bench.read("image"), CAPACITIES);
    let lacking = whole.lacking(&[1, 0]);
    let refused = |sending: &Sending, number: u32, words: &str| {
        refused(&bench, ["backup-sent s 1", ""], &sending.to_bytes(), number, words);
    };
    refused(&Sending { length: 0, ..lacking.clone() }, 4, "begins with a length of 0, this store takes 1 to 1024");
    refused(&Sending { length: 1_025, ..lacking.clone() }, 4, "begins with a length of 1025");
    refused(&Sending { length: 512, ..lacking.clone() }, 4, "what follows the length of 512 in ");
    refused(&Sending { marks: vec![1, 2], ..lacking.clone() }, 4, "an image cut into segments of 512 bytes has");
    refused(&Sending { segments: vec![0; 511], ..lacking.clone() }, 4, "came over whole and alone");
    refused(&Sending { segments: vec![0; 70_000], ..lacking.clone() }, 4, "`lurdempos sent s IMAGE MARKS OUT`");
    refused(&Sending::default(), 4, "begins with a length of 0");
    let mut other = lacking.clone();
    other.segments[3] ^= 1;
    refused(&other, 19, "has a segment that is not what its fingerprint tells, or the image ends within it");
    refused(&Sending { length: 599, ..lacking.clone() }, 19, "`lurdempos offer s 1 FINGERPRINTS OUT`");
    refused(&whole.lacking(&[1, 1]), 20, "leaves out a segment that this store does not have, or no longer");
    refused(&whole.lacking(&[1, 1]), 20, "begin anew with `lurdempos offer s 1 FINGERPRINTS OUT`");
    bench.fed("backup-sent s 1 -", &[1, 2]).fails(1, &["refused, 4: ", "begins with a length of 0"]);
    bench.fed("backup-sent s 2 -", &lacking.to_bytes()).fails(1, &["refused, 3: ", "there is no till 2"]);
    // A version that goes takes with it what was marked.
    bench.run("retire s 0 1").accepted();
    refused(&lacking, 20, "or no longer");
    // A full till, and a store without room.
    bench.write("message", whole.to_bytes());
    for n in 1..=4 {
        bench.run("backup-sent s 1 message").accepted().says(&format!("version {n} kept"));
    }
    refused(&whole, 11, "first: `lurdempos retire s 1 1`; then begin anew with `lurdempos offer s 1 FINGERPRINTS OUT`");
    assert_eq!(bench.run("init tiny --tills 1 --blocks 16 --records 1 --cells 16").status, Some(0));
    let run = bench.run("backup-sent tiny 0 message");
    run.fails(1, &["refused, 14: ", "even when the store is empty", "at least `--records 2 --cells 10`"]);
}

#[test]
fn images_and_marks_that_do_not_fit() {
    let bench = with_version("lacking-marks");
    bench.write("marks", [1, 0]);
    bench.write("three", [1, 0, 0]);
    bench.write("two", [1, 2]);
    bench.write("empty", "");
    bench.write("long", [1; 1_025]);
    let what = "take the marks that `lurdempos offer` wrote";
    bench.run("sent s image three out").fails(3, &["three: has 3 bytes, the image has 2 segments", what]);
    bench.run("sent s image empty out").fails(3, &["empty: has 0 bytes, the image has 2 segments", what]);
    bench.run("sent s image two out").fails(3, &["two: has a byte other than 0 and 1", what]);
    bench.run("sent s image missing out").fails(3, &["missing: cannot be read"]);
    for image in ["empty", "long"] {
        bench.run(&format!("fingerprints s {image} out")).fails(1, &["refused, 4: ", "this store takes 1 to 1024"]);
        bench.run(&format!("sent s {image} marks out")).fails(1, &["refused, 4: ", "this store takes 1 to 1024"]);
    }
    assert!(!bench.names().contains(&"out".to_string()));
}

#[test]
fn outputs_as_those_of_restore() {
    let bench = with_version("lacking-outputs");
    bench.write("prints", sending(&bench.read("image"), CAPACITIES).fingerprints);
    bench.run("init other --tills 1 --cells 9 --blocks 2").accepted();
    bench.run("offer s 0 prints other").fails(2, &["other is a store, which would be lost", "--force"]);
    bench.run("offer s 0 prints s --force").fails(2, &["s is the store itself"]);
    bench.shell("lurdempos offer s 0 prints - > /dev/full").fails(3, &["standard output could not be written"]);
    bench.shell("lurdempos backup-sent s 0 prints >> s").fails(2, &["standard output is s, the store itself"]);
    bench.run("offer s 0 prints other --force --quiet").accepted();
    assert_eq!(bench.read("other"), [1, 0]);
}
