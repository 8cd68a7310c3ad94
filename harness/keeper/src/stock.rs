//! What a box has of the segments that a till tells by their fingerprints, and the image that a message makes with it,
//! looked up plainly in the words of a sound store.

use crate::words::Words;
use std::iter::once;
use terms::{Capacities, Fingerprint, Refusal, Sending, FINGERPRINT};

/// Who makes fingerprints.
pub type Print<'a> = &'a dyn Fn(&[u8]) -> Fingerprint;

/// A segment with its fingerprint.
pub type Known = (Fingerprint, Vec<u8>);

pub struct Stock {
    zero: Known,
    /// Those of records that can match, the lowest first.
    records: Vec<Known>,
}

impl Stock {
    pub fn of(pool: &[u8], table: &[u32], print: Print) -> Stock {
        let capacities = Capacities::of_table(table).expect("a sound store");
        let known = |segment: Vec<u8>| (print(&segment), segment);
        let records = Words::new(table, capacities).segments(pool, capacities.block_bytes as usize);
        let zero = known(vec![0; capacities.segment_bytes()]);
        Stock { zero, records: records.into_iter().map(known).collect() }
    }

    pub fn records(&self) -> &[Known] {
        &self.records
    }

    /// For each fingerprint 1 if its segment is had, else 0.
    pub fn marks(&self, fingerprints: &[u8]) -> Vec<u8> {
        let has = |print: &[u8]| self.find(print, &[]).is_some() as u8;
        fingerprints.chunks(FINGERPRINT).map(has).collect()
    }

    /// In the page's order: the zero segment, those sent earlier, the records.
    fn find(&self, print: &[u8], sent: &[Known]) -> Option<Vec<u8>> {
        let mut known = once(&self.zero).chain(sent).chain(&self.records);
        known.find(|(own, _)| own == print).map(|(_, segment)| segment.clone())
    }

    /// The image of a message whose lists fit, or 19 or 20.
    pub fn assembled(&self, sending: &Sending, print: Print) -> Result<Vec<u8>, Refusal> {
        let bytes = self.zero.1.len();
        let (mut image, mut sent) = (Vec::new(), Vec::new());
        for (stated, mark) in sending.fingerprints.chunks(FINGERPRINT).zip(&sending.marks) {
            let segment = match mark {
                0 => self.find(stated, &sent).ok_or(Refusal::NoSegment)?,
                _ => sending.segments[sent.len() * bytes..][..bytes].to_vec(),
            };
            let (own, end) = (print(&segment), bytes.min(sending.length as usize - image.len()));
            if own != stated || segment[end..].iter().any(|&byte| byte != 0) {
                return Err(Refusal::OtherSegment);
            }
            image.extend_from_slice(&segment);
            if *mark == 1 {
                sent.push((own, segment));
            }
        }
        image.truncate(sending.length as usize);
        Ok(image)
    }
}

/// Whether the first message has fingerprints and room for marks as the page wants them.
pub fn offer_fits(fingerprints: &[u8], marks: usize, capacities: Capacities) -> bool {
    let count = fingerprints.len() / FINGERPRINT;
    let whole = fingerprints.len().is_multiple_of(FINGERPRINT);
    whole && marks == count && (1..=capacities.segments()).contains(&count)
}

/// Whether the second message has a length as an image can have, lists that fit it, and no other mark than 0 and 1.
pub fn fits(Sending { length, fingerprints, marks, segments }: &Sending, capacities: Capacities) -> bool {
    let (length, bytes) = (*length as usize, capacities.segment_bytes());
    let count = length.div_ceil(bytes);
    let sent = marks.iter().filter(|&&mark| mark != 0).count();
    length > 0
        && length <= capacities.image_bytes()
        && marks.iter().all(|mark| [0, 1].contains(mark))
        && [marks.len(), fingerprints.len(), segments.len()] == [count, FINGERPRINT * count, bytes * sent]
}
