//! Answers with what a call has written beside its numbers.

use terms::{answer, Each, Refusal, CLOSING_NUMBERS, FINGERPRINT};

/// What a call writes to the start of so much room, as long as it answers.
pub fn written(room: usize, write: impl FnOnce(&mut [u8]) -> Result<u32, Refusal>) -> Result<Vec<u8>, Refusal> {
    let mut output = vec![0; room];
    let length = write(&mut output)?;
    output.truncate(length as usize);
    Ok(output)
}

/// The marks that an offer of these fingerprints writes.
pub fn marked(fingerprints: &[u8], offer: impl FnOnce(&mut [u8]) -> [u32; 1]) -> Result<Vec<u8>, Refusal> {
    let mut marks = vec![0; fingerprints.len() / FINGERPRINT];
    answer(offer(&mut marks)).map(|()| marks)
}

/// What became of each of so many images of a closing.
pub fn each(images: usize, numbers: [u32; CLOSING_NUMBERS]) -> Result<Each, Refusal> {
    let mut each: Each = answer(numbers)?;
    each.truncate(images);
    Ok(each)
}
