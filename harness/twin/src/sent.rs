//! The two messages of a till that sends only what the box lacks.

use crate::layout::{ones, Layout, Record};
use crate::rows::{is_blank, Blocks, Records};
use crate::sha1::fingerprint_of;
use crate::sound::Found;
use crate::users::By;
use crate::{file, room_in, sound, New};
use std::borrow::Cow;
use std::collections::HashMap;
use terms::{Fingerprint, Message, Refusal, Right, FINGERPRINT};

/// Marks with 1, else 0, each fingerprint that the all-zero segment has, or a whole record that can match.
pub fn offer(
    pool: &[u8],
    table: &[u32],
    user: u32,
    till: u32,
    fingerprints: &[u8],
    marks: &mut [u8],
) -> Result<(), Refusal> {
    offer_in(&sound::check(pool, table)?.layout, pool, table, By { user, till }, fingerprints, marks)
}

pub fn offer_in(
    layout: &Layout,
    pool: &[u8],
    table: &[u32],
    by: By,
    fingerprints: &[u8],
    marks: &mut [u8],
) -> Result<(), Refusal> {
    by.with(Right::BackUp, layout, table)?;
    let most = layout.blocks.div_ceil(layout.positions);
    if !(1..=most).contains(&marks.len()) || fingerprints.len() != FINGERPRINT * marks.len() {
        return Err(Refusal::ImageLength);
    }
    let kept = Kept::of(layout, pool, table);
    for (mark, print) in marks.iter_mut().zip(fingerprints.as_chunks().0) {
        *mark = (*print == kept.zero || kept.lowest.contains_key(print)) as u8;
    }
    Ok(())
}

/// Puts an image together from what was sent and what the box has, files it and answers its number.
pub fn backup_sent(pool: &mut [u8], table: &mut [u32], user: u32, till: u32, message: Message) -> Result<u32, Refusal> {
    backup_sent_in(&mut sound::check(pool, table)?, pool, table, By { user, till }, message)
}

pub fn backup_sent_in(
    found: &mut Found,
    pool: &mut [u8],
    table: &mut [u32],
    by: By,
    message: Message,
) -> Result<u32, Refusal> {
    let till = by.with(Right::BackUp, &found.layout, table)?;
    if !fits(message, &found.layout) {
        return Err(Refusal::ImageLength);
    }
    room_in(&found.layout, table, till)?;
    let image = assembled(message, &Kept::of(&found.layout, pool, table))?;
    file(found, pool, table, till, New::now(&image))
}

/// Whether a message has a length that an image can have, and lists that fit it.
fn fits(Message { length, fingerprints, marks, segments }: Message, layout: &Layout) -> bool {
    let (length, bytes) = (length as usize, layout.segment_bytes());
    let follow = marks.iter().filter(|&&mark| mark == 1).count();
    (1..=layout.bytes * layout.blocks).contains(&length)
        && marks.len() == length.div_ceil(bytes)
        && marks.iter().all(|&mark| mark <= 1)
        && fingerprints.len() == FINGERPRINT * marks.len()
        && segments.len() == follow * bytes
}

/// What the box has: the all-zero segment, and of each fingerprint the lowest whole record that can match.
struct Kept<'a> {
    layout: &'a Layout,
    cells: Blocks<'a>,
    records: Records<'a>,
    zero: Fingerprint,
    lowest: HashMap<Fingerprint, usize>,
}

impl<'a> Kept<'a> {
    fn of(layout: &'a Layout, pool: &'a [u8], table: &'a [u32]) -> Kept<'a> {
        let (cells, records) = (layout.cells_of(pool), layout.records_of(table));
        let zero = fingerprint_of(&vec![0; layout.segment_bytes()]);
        let mut kept = Kept { layout, cells, records, zero, lowest: HashMap::new() };
        for record in (0..layout.records).filter(|&record| can_match(&records[record], cells)) {
            let print = fingerprint_of(&kept.content(record));
            kept.lowest.entry(print).or_insert(record);
        }
        kept
    }

    /// A whole record's segment.
    fn content(&self, record: usize) -> Vec<u8> {
        let (words, bytes) = (&self.records[record], self.layout.bytes);
        let mut content = vec![0; self.layout.segment_bytes()];
        let place = |i: usize| i * bytes..(i + 1) * bytes;
        ones(words[0]).for_each(|i| content[place(i)].copy_from_slice(&self.cells[Record::cell(words, i)]));
        ones(Record::masks(words).blank).for_each(|i| content[place(i)].fill(255));
        content
    }

    /// The segment that is had for a fingerprint, with those sent so far.
    fn had<'b>(&self, print: &Fingerprint, sent: &HashMap<Fingerprint, &'b [u8]>) -> Option<Cow<'b, [u8]>> {
        if *print == self.zero {
            return Some(vec![0; self.layout.segment_bytes()].into());
        }
        let record = || self.lowest.get(print).map(|&record| self.content(record).into());
        sent.get(print).map(|&segment| segment.into()).or_else(record)
    }
}

/// In use, with no position removed and no cell of 255s.
fn can_match(words: &[u32], cells: Blocks) -> bool {
    Record::is_whole(words) && ones(words[0]).all(|i| !is_blank(&cells[Record::cell(words, i)]))
}

/// The image of a message that fits.
fn assembled(message: Message, kept: &Kept) -> Result<Vec<u8>, Refusal> {
    let (length, bytes) = (message.length as usize, kept.layout.segment_bytes());
    let mut image = Vec::with_capacity(length.next_multiple_of(bytes));
    // Of each fingerprint the lowest.
    let mut sent: HashMap<Fingerprint, &[u8]> = HashMap::new();
    let mut following = message.segments.chunks_exact(bytes);
    for (print, &mark) in message.fingerprints.as_chunks().0.iter().zip(message.marks) {
        let segment = if mark == 1 {
            let segment = following.next().expect("the message fits");
            if fingerprint_of(segment) != *print {
                return Err(Refusal::OtherSegment);
            }
            sent.entry(*print).or_insert(segment);
            Cow::from(segment)
        } else {
            kept.had(print, &sent).ok_or(Refusal::NoSegment)?
        };
        let own = bytes.min(length - image.len());
        if segment[own..].iter().any(|&byte| byte != 0) {
            return Err(Refusal::OtherSegment);
        }
        image.extend_from_slice(&segment);
    }
    image.truncate(length);
    Ok(image)
}
