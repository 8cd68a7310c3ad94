//! SHA-1 and the two messages, put to the twin.

use keeper::{sent, Random};
use std::io::Write;
use std::process::{Command, Stdio};
use terms::{fingerprint, BLOCK_BYTES, SEGMENT_BLOCKS};
use twin::{earlier, fingerprint_of, sha1, Twin};

/// What the system's own program says of a message.
fn sha1sum(message: &[u8]) -> String {
    let mut child = Command::new("sha1sum").stdin(Stdio::piped()).stdout(Stdio::piped()).spawn().expect("sha1sum");
    child.stdin.take().expect("a pipe").write_all(message).expect("it reads all");
    let output = child.wait_with_output().expect("it ends");
    String::from_utf8_lossy(&output.stdout).chars().take(40).collect()
}

fn digits(message: &[u8]) -> String {
    fingerprint_of(message).iter().map(|byte| format!("{byte:02x}")).collect()
}

#[test]
fn published_vectors() {
    sent::published_vectors(&Twin);
}

/// Every length up to four chunks and some more, and random ones.
#[test]
fn as_the_system_has_it() {
    let mut random = Random::new(1);
    let lengths: Vec<usize> = (0..260).chain((0..60).map(|_| random.below(70_000))).chain([65_536, 1 << 21]).collect();
    for length in lengths {
        let mut message = vec![0; length];
        random.fill(&mut message);
        assert_eq!(digits(&message), sha1sum(&message), "{length} bytes");
        assert_eq!(fingerprint(sha1(&message)), fingerprint_of(&message));
    }
}

#[test]
fn marked() {
    sent::marked(&Twin);
}

#[test]
fn sent_or_had() {
    sent::sent_or_had(&Twin);
}

#[test]
fn nineteen() {
    sent::nineteen(&Twin);
}

#[test]
fn the_first_segment() {
    sent::the_first_segment(&Twin);
}

#[test]
fn records_that_cannot_match() {
    sent::records_that_cannot_match(&Twin, earlier);
}

#[test]
fn two_with_one_fingerprint() {
    sent::two_with_one_fingerprint(&Twin);
}

#[test]
fn every_size() {
    let sizes = BLOCK_BYTES.into_iter().flat_map(|bytes| SEGMENT_BLOCKS.map(|blocks| (bytes, blocks)));
    sizes.for_each(|(bytes, blocks)| sent::every_size(&Twin, bytes, blocks));
}
