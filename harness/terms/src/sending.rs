//! What a till sends that asks first what the box lacks: the fingerprints of its image's segments, then a message with
//! those segments that are lacking.

use crate::LONGEST_IMAGE;

/// Bytes of a fingerprint.
pub const FINGERPRINT: usize = 20;

/// Most segments that an image can have: blocks of 64 bytes, four to a segment.
pub const MOST_SEGMENTS: usize = LONGEST_IMAGE as usize / 256;

/// Bytes of the longest second message.
pub const LONGEST_MESSAGE: usize = 4 + MOST_SEGMENTS * (FINGERPRINT + 1) + LONGEST_IMAGE as usize;

/// A segment's SHA-1.
pub type Fingerprint = [u8; FINGERPRINT];

/// The five words of a SHA-1 as bytes, the highest of each word first.
pub fn fingerprint(words: [u32; 5]) -> Fingerprint {
    let mut bytes = [0; FINGERPRINT];
    bytes.chunks_exact_mut(4).zip(words).for_each(|(four, word)| four.copy_from_slice(&word.to_be_bytes()));
    bytes
}

/// The second message, as a call is lent it.
#[derive(Clone, Copy, Debug, PartialEq, Eq)]
pub struct Message<'a> {
    /// Bytes of the image.
    pub length: u32,
    /// One of each segment, the last one filled up with zeros.
    pub fingerprints: &'a [u8],
    /// One for each segment: 1 if it follows, else 0.
    pub marks: &'a [u8],
    /// The segments that follow, each in full.
    pub segments: &'a [u8],
}

/// The second message, as a till puts it together.
#[derive(Clone, Debug, Default, PartialEq, Eq)]
pub struct Sending {
    pub length: u32,
    pub fingerprints: Vec<u8>,
    pub marks: Vec<u8>,
    pub segments: Vec<u8>,
}

impl Sending {
    /// All segments of an image, of so many bytes each, with the fingerprints that `print` makes.
    pub fn whole(image: &[u8], bytes: usize, print: impl Fn(&[u8]) -> Fingerprint) -> Sending {
        let mut segments = image.to_vec();
        segments.resize(image.len().next_multiple_of(bytes), 0);
        let fingerprints: Vec<u8> = segments.chunks(bytes).flat_map(print).collect();
        Sending { length: image.len() as u32, marks: vec![1; segments.len() / bytes], fingerprints, segments }
    }

    /// The same without the segments that the box has marked with 1 and without those that come again.
    pub fn lacking(&self, had: &[u8]) -> Sending {
        let bytes = self.segments.len() / self.marks.len().max(1);
        let prints: Vec<&[u8]> = self.fingerprints.chunks(FINGERPRINT).collect();
        let lacks = |n: usize| had.get(n) != Some(&1) && !prints[..n].contains(&prints[n]);
        let marks: Vec<u8> = (0..prints.len()).map(|n| lacks(n) as u8).collect();
        let sent = self.segments.chunks(bytes.max(1)).zip(&marks).filter(|(_, &mark)| mark == 1);
        let segments = sent.flat_map(|(segment, _)| segment.to_vec()).collect();
        Sending { marks, segments, ..self.clone() }
    }

    pub fn message(&self) -> Message<'_> {
        let Sending { length, fingerprints, marks, segments } = self;
        Message { length: *length, fingerprints, marks, segments }
    }

    /// The message's bytes: the length in four, lowest first, the fingerprints, the marks, the segments.
    pub fn to_bytes(&self) -> Vec<u8> {
        [&self.length.to_le_bytes()[..], &self.fingerprints, &self.marks, &self.segments].concat()
    }
}

impl<'a> Message<'a> {
    /// The parts of a message's bytes for a store with segments of so many bytes. What ends too early has parts that do
    /// not fit the length, and without a whole length that is 0.
    pub fn of_bytes(bytes: &'a [u8], segment: usize) -> Message<'a> {
        let (length, rest) = bytes.split_first_chunk().unwrap_or((&[0; 4], bytes));
        let length = u32::from_le_bytes(*length);
        let count = (length as usize).div_ceil(segment);
        let (fingerprints, rest) = rest.split_at(rest.len().min(count * FINGERPRINT));
        let (marks, segments) = rest.split_at(rest.len().min(count));
        Message { length, fingerprints, marks, segments }
    }
}

#[cfg(test)]
mod tests {
    use super::{fingerprint, Fingerprint, Message, Sending};

    /// No fingerprint of use, but one that tells segments of one byte each apart.
    fn first_byte(segment: &[u8]) -> Fingerprint {
        [segment[0]; 20]
    }

    #[test]
    fn what_is_lacking() {
        let whole = Sending::whole(&[7, 7, 8, 8, 7, 7, 9], 2, first_byte);
        assert_eq!(
            (whole.length, &whole.marks[..], &whole.segments[..]),
            (7, &[1; 4][..], &[7, 7, 8, 8, 7, 7, 9, 0][..])
        );
        assert_eq!(whole.fingerprints, [[7; 20], [8; 20], [7; 20], [9; 20]].concat());
        let lacking = whole.lacking(&[0, 1, 0, 0]);
        assert_eq!((&lacking.marks[..], &lacking.segments[..]), (&[1, 0, 0, 1][..], &[7, 7, 9, 0][..]));
        assert_eq!(whole.lacking(&[1; 4]).to_bytes().len(), 4 + 4 * 20 + 4);
    }

    #[test]
    fn bytes_lead_back() {
        let sending = Sending::whole(&[7, 7, 8, 8, 9], 2, first_byte).lacking(&[0, 1, 0]);
        let bytes = sending.to_bytes();
        assert_eq!(Message::of_bytes(&bytes, 2), sending.message());
        (0..4).for_each(|end| assert_eq!(Message::of_bytes(&bytes[..end], 2).length, 0));
        (0..bytes.len()).for_each(|end| assert_ne!(Message::of_bytes(&bytes[..end], 2), sending.message(), "{end}"));
        assert_eq!(Message::of_bytes(&[255; 9], 2).fingerprints.len(), 5);
    }

    #[test]
    fn words_as_bytes() {
        assert_eq!(fingerprint([0x0102_0304, 0, 0, 0, 0xfffe_fdfc])[..5], [1, 2, 3, 4, 0]);
        assert_eq!(fingerprint([0x0102_0304, 0, 0, 0, 0xfffe_fdfc])[16..], [255, 254, 253, 252]);
    }
}
