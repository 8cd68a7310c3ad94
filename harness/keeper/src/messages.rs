//! Random messages of tills that send only what the box lacks: many as they should be, the others wrong in one way or in
//! several.

use crate::stock::{Print, Stock};
use crate::Random;
use terms::{Capacities, Fingerprint, Sending, FINGERPRINT};

/// Makes messages for a store.
pub struct Messages<'a> {
    pub capacities: Capacities,
    pub stock: &'a Stock,
    pub print: Print<'a>,
}

/// A segment of a message, with its bytes though it may not be sent.
struct Part {
    print: Fingerprint,
    segment: Vec<u8>,
    sent: bool,
}

impl Messages<'_> {
    /// The fingerprints of an image, some of them others, and room for the marks; mostly as much as there has to be.
    pub fn offer(&self, random: &mut Random, image: &[u8], wrong: bool) -> (Vec<u8>, usize) {
        let mut parts = self.parts(image);
        (0..random.below(3)).for_each(|_| self.spoil(random, &mut parts));
        let mut prints: Vec<u8> = parts.iter().flat_map(|part| part.print).collect();
        let mut room = prints.len() / FINGERPRINT;
        let most = self.capacities.segments();
        match random.below(8) {
            _ if !wrong => {}
            0 => prints.clear(),
            1 => prints.truncate(prints.len() - random.between(1, FINGERPRINT)),
            2 => prints.extend([7; FINGERPRINT]),
            3 => (prints, room) = (vec![7; FINGERPRINT * (most + 1)], most + 1),
            4 => (prints, room) = (vec![7; FINGERPRINT * most], most),
            5 => room += 1,
            6 => room -= 1,
            _ => (prints, room) = (vec![], 0),
        }
        (prints, room)
    }

    /// The second message for an image.
    pub fn sent(&self, random: &mut Random, image: &[u8], wrong: bool) -> Sending {
        let mut parts = self.parts(image);
        let mut length = image.len() as u32;
        let faults = if random.percent(50) { 0 } else { random.between(1, 3) };
        (0..faults).for_each(|_| self.spoil(random, &mut parts));
        if random.percent(6) {
            length -= random.below(image.len().min(self.capacities.segment_bytes())) as u32;
        }
        let mut sending = gathered(length, &parts);
        if wrong {
            self.misfit(random, &mut sending);
        }
        sending
    }

    /// An image's segments; those are sent that are lacking.
    fn parts(&self, image: &[u8]) -> Vec<Part> {
        let bytes = self.capacities.segment_bytes();
        let whole = Sending::whole(image, bytes, self.print);
        let lacking = whole.lacking(&self.stock.marks(&whole.fingerprints));
        let prints = whole.fingerprints.as_chunks().0;
        let parts = whole.segments.chunks(bytes).zip(prints).zip(&lacking.marks);
        parts.map(|((segment, &print), &mark)| Part { print, segment: segment.to_vec(), sent: mark == 1 }).collect()
    }

    /// One thing that a till can do otherwise, right or wrong.
    fn spoil(&self, random: &mut Random, parts: &mut [Part]) {
        let (n, other) = (random.below(parts.len()), random.below(parts.len()));
        let last = parts.len() - 1;
        let part = &mut parts[n];
        let byte = random.below(part.segment.len());
        match random.below(12) {
            0 => part.print[random.below(FINGERPRINT)] ^= 1 << random.below(8),
            1 => part.segment[byte] ^= 1 << random.below(8),
            2 | 3 => part.sent = !part.sent,
            4 => parts.iter_mut().for_each(|part| part.sent = true),
            5 => parts.iter_mut().for_each(|part| part.sent = random.percent(50)),
            6 => parts.swap(n, other),
            7 => self.stocked(random, part),
            8 => *part = self.known(vec![0; part.segment.len()]),
            9 => self.end_with(random, &mut parts[last]),
            10 => late(parts, n, other),
            _ => part.sent = false,
        }
    }

    /// A segment with its fingerprint, not sent.
    fn known(&self, segment: Vec<u8>) -> Part {
        Part { print: (self.print)(&segment), segment, sent: false }
    }

    /// What a record has, mostly not sent.
    fn stocked(&self, random: &mut Random, part: &mut Part) {
        if let [_, ..] = self.stock.records() {
            let (print, segment) = random.pick(self.stock.records());
            *part = Part { print: *print, segment: segment.clone(), sent: random.percent(20) };
        }
    }

    /// The last segment ends with another byte, which is past the length unless the image is whole segments.
    fn end_with(&self, random: &mut Random, last: &mut Part) {
        *last.segment.last_mut().expect("segments have bytes") = random.between(1, 255) as u8;
        last.print = (self.print)(&last.segment);
        last.sent = random.percent(80);
    }

    /// Lists that do not fit, or another mark; now and then the message is as before.
    fn misfit(&self, random: &mut Random, sending: &mut Sending) {
        let Sending { length, fingerprints, marks, segments } = sending;
        let bytes = self.capacities.segment_bytes();
        let mark = random.below(marks.len());
        match random.below(13) {
            0 => *length = 0,
            1 => *length = self.capacities.image_bytes() as u32 + 1,
            2 => *length = random.edge(),
            3 => *length += bytes as u32,
            4 => marks[mark] = random.between(2, 255) as u8,
            5 => marks[mark] ^= 1,
            6 => marks.push(random.below(2) as u8),
            7 => marks.truncate(mark),
            8 => fingerprints.truncate(fingerprints.len() - random.between(1, FINGERPRINT)),
            9 => fingerprints.extend(vec![1; random.between(1, FINGERPRINT)]),
            10 => segments.extend(vec![1; random.between(1, bytes)]),
            11 => segments.truncate(segments.len().saturating_sub(random.between(1, bytes))),
            _ => marks.clear(),
        }
    }
}

/// One segment at two places, of which only the later is sent.
fn late(parts: &mut [Part], one: usize, other: usize) {
    let (first, second) = (one.min(other), one.max(other));
    let (print, segment) = (parts[second].print, parts[second].segment.clone());
    parts[second].sent = true;
    if first < second {
        parts[first] = Part { print, segment, sent: false };
    }
}

fn gathered(length: u32, parts: &[Part]) -> Sending {
    let sent = parts.iter().filter(|part| part.sent);
    Sending {
        length,
        fingerprints: parts.iter().flat_map(|part| part.print).collect(),
        marks: parts.iter().map(|part| part.sent as u8).collect(),
        segments: sent.flat_map(|part| part.segment.clone()).collect(),
    }
}
