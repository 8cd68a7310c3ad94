//! A version as a stream, for moving it to another box: blocks of 64 bytes, eight to a bit map byte.

use crate::layout::Layout;
use crate::users::By;
use crate::{restore_in, sound};
use terms::{Refusal, LONGEST_IMAGE};

const BLOCK: usize = 64;
const GROUP: usize = 8;

/// An image's stream.
pub fn stream_of(image: &[u8]) -> Vec<u8> {
    let mut stream = (image.len() as u32).to_le_bytes().to_vec();
    for group in image.chunks(GROUP * BLOCK) {
        let map = stream.len();
        stream.push(0);
        for (bit, block) in group.chunks(BLOCK).enumerate() {
            if block.iter().any(|&byte| byte != 0) {
                stream[map] |= 1 << bit;
                stream.extend_from_slice(block);
                stream.resize(stream.len() + BLOCK - block.len(), 0);
            }
        }
    }
    stream
}

/// Writes a held version's stream to the output and answers the stream's length.
pub fn write_stream(
    pool: &[u8],
    table: &[u32],
    user: u32,
    till: u32,
    version: u32,
    output: &mut [u8],
) -> Result<u32, Refusal> {
    write_stream_in(&sound::check(pool, table)?.layout, pool, table, By { user, till }, version, output)
}

pub fn write_stream_in(
    layout: &Layout,
    pool: &[u8],
    table: &[u32],
    by: By,
    version: u32,
    output: &mut [u8],
) -> Result<u32, Refusal> {
    let mut image = vec![0; LONGEST_IMAGE as usize];
    let restored = restore_in(layout, pool, table, by, version, &mut image)?;
    let stream = stream_of(&image[..restored.length as usize]);
    output.get_mut(..stream.len()).ok_or(Refusal::ShortOutput)?.copy_from_slice(&stream);
    Ok(stream.len() as u32)
}

/// Writes a stream's image to the output and answers the image's length.
pub fn read_stream(stream: &[u8], output: &mut [u8]) -> Result<u32, Refusal> {
    let (length, mut rest) = stream.split_first_chunk::<4>().ok_or(Refusal::StreamSize)?;
    let length = u32::from_le_bytes(*length);
    if length == 0 || length > LONGEST_IMAGE {
        return Err(Refusal::StreamLength);
    }
    let output = output.get_mut(..length as usize).ok_or(Refusal::ShortOutput)?;
    let mut image = vec![0; output.len()];
    for group in image.chunks_mut(GROUP * BLOCK) {
        rest = read_group(rest, group)?;
    }
    if !rest.is_empty() {
        return Err(Refusal::StreamSize);
    }
    output.copy_from_slice(&image);
    Ok(length)
}

/// Reads what the stream has of a group that is all zero yet, and answers what follows it.
fn read_group<'a>(stream: &'a [u8], group: &mut [u8]) -> Result<&'a [u8], Refusal> {
    let (&map, mut rest) = stream.split_first().ok_or(Refusal::StreamSize)?;
    let blocks = group.len().div_ceil(BLOCK);
    if (blocks..GROUP).any(|missing| map >> missing & 1 == 1) {
        return Err(Refusal::StreamBits);
    }
    for (bit, block) in group.chunks_mut(BLOCK).enumerate() {
        if map >> bit & 1 == 1 {
            let (whole, after) = rest.split_first_chunk::<BLOCK>().ok_or(Refusal::StreamSize)?;
            let (own, behind) = whole.split_at(block.len());
            if own.iter().all(|&byte| byte == 0) || behind.iter().any(|&byte| byte != 0) {
                return Err(Refusal::StreamBits);
            }
            block.copy_from_slice(own);
            rest = after;
        }
    }
    Ok(rest)
}
