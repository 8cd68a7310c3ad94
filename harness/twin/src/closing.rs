//! All tills at closing: several images in one call, each filed as a backup of its own.

use crate::users::By;
use crate::{backup_in, sound, New};
use terms::{Closing, Each, Refusal, MOST_IMAGES};

/// Files each image of a user in turn and answers what became of it; a refused one does not stop the later ones. The store is
/// checked once, since a backup leaves it sound.
pub fn backup_all(pool: &mut [u8], table: &mut [u32], user: u32, closing: Closing) -> Result<Each, Refusal> {
    let mut found = sound::check(pool, table)?;
    each(closing, |till, image| backup_in(&mut found, pool, table, By { user, till }, New::now(image)))
}

/// What `file` makes of the images of a closing, one after the other.
pub fn each(closing: Closing, mut file: impl FnMut(u32, &[u8]) -> Result<u32, Refusal>) -> Result<Each, Refusal> {
    if !fits(closing) {
        return Err(Refusal::ImageLength);
    }
    let mut left = closing.images;
    let one = |(&till, &length): (&u32, &u32)| {
        let image;
        (image, left) = left.split_at(length as usize);
        file(till, image)
    };
    Ok(closing.tills.iter().zip(closing.lengths).map(one).collect())
}

/// Whether there are no more images than may be, a till for each, and lengths that add up to the bytes. So few lengths
/// of 32 bits cannot add up to more than 64.
fn fits(Closing { tills, lengths, images }: Closing) -> bool {
    tills.len() == lengths.len()
        && lengths.len() <= MOST_IMAGES
        && lengths.iter().map(|&length| u64::from(length)).sum::<u64>() == images.len() as u64
}
