//! Streams, which carry a version from one box to another. Reading one needs no store.

use crate::answers::written;
use crate::Proved;
use terms::{answer, Calls, Refusal, LONGEST_IMAGE};

/// Reads a whole stream, writes its image to the start of the output and answers the image's length.
pub fn read_stream(stream: &[u8], output: &mut [u8]) -> Result<u32, Refusal> {
    answer(Proved.read_stream(stream, output))
}

/// The image that a stream has.
pub fn image_of_stream(stream: &[u8]) -> Result<Vec<u8>, Refusal> {
    written(LONGEST_IMAGE as usize, |image| read_stream(stream, image))
}
