//! A closing: the images of several tills, which one call files.

use crate::{accepted, Fields, Refusal};

/// Most images that one closing can have.
pub const MOST_IMAGES: usize = 16;

/// A closing's answer as bare numbers: the refusal of the whole, each image's, and each image's version.
pub const CLOSING_NUMBERS: usize = 1 + 2 * MOST_IMAGES;

/// A closing, as a call is lent it.
#[derive(Clone, Copy, Debug, PartialEq, Eq)]
pub struct Closing<'a> {
    /// The till of each image.
    pub tills: &'a [u32],
    /// The bytes of each image.
    pub lengths: &'a [u32],
    /// The images, end to end.
    pub images: &'a [u8],
}

/// A closing, as a box collects it.
#[derive(Clone, Debug, Default, PartialEq, Eq)]
pub struct Collected {
    pub tills: Vec<u32>,
    pub lengths: Vec<u32>,
    pub images: Vec<u8>,
}

/// What became of each image: its version, or why it has none.
pub type Each = Vec<Result<u32, Refusal>>;

impl Collected {
    /// These images, each with its till.
    pub fn of<'a>(images: impl IntoIterator<Item = (u32, &'a [u8])>) -> Collected {
        let mut collected = Collected::default();
        images.into_iter().for_each(|(till, image)| collected.add(till, image));
        collected
    }

    /// One image more. A length that no number can tell makes a sum that is not that of the bytes.
    pub fn add(&mut self, till: u32, image: &[u8]) {
        self.tills.push(till);
        self.lengths.push(u32::try_from(image.len()).unwrap_or(u32::MAX));
        self.images.extend_from_slice(image);
    }

    pub fn closing(&self) -> Closing<'_> {
        let Collected { tills, lengths, images } = self;
        Closing { tills, lengths, images }
    }
}

impl Fields<CLOSING_NUMBERS> for Each {
    fn fields(self) -> [u32; CLOSING_NUMBERS] {
        let mut numbers = [0; CLOSING_NUMBERS];
        let (refusals, versions) = numbers[1..].split_at_mut(MOST_IMAGES);
        for ((refusal, version), one) in refusals.iter_mut().zip(versions).zip(self) {
            (*refusal, *version) = one.map_or_else(|refusal| (refusal.number(), 0), |version| (0, version));
        }
        numbers
    }

    /// One of every place, also of those past the last image.
    fn of_fields([_, rest @ ..]: [u32; CLOSING_NUMBERS]) -> Each {
        let (refusals, versions) = rest.split_at(MOST_IMAGES);
        let one = |(&refusal, &version): (&u32, &u32)| accepted(refusal).map(|()| version);
        refusals.iter().zip(versions).map(one).collect()
    }
}

#[cfg(test)]
mod tests {
    use super::{Closing, Collected, MOST_IMAGES};
    use crate::{numbers, Refusal};

    #[test]
    fn end_to_end() {
        let collected = Collected::of([(3, &[1, 2][..]), (0, &[]), (3, &[3])]);
        let closing = Closing { tills: &[3, 0, 3], lengths: &[2, 0, 1], images: &[1, 2, 3] };
        assert_eq!(collected.closing(), closing);
    }

    #[test]
    fn answers_as_numbers() {
        let answer = numbers(Ok(vec![Ok(7), Err(Refusal::NoRun), Ok(65_535)]));
        assert_eq!((&answer[..5], &answer[17..21]), (&[0, 0, 16, 0, 0][..], &[7, 0, 65_535, 0][..]));
        assert_eq!(answer.iter().sum::<u32>(), 7 + 16 + 65_535);
        let back: super::Each = crate::answer(answer).expect("it was accepted");
        assert_eq!((&back[..4], back.len()), (&[Ok(7), Err(Refusal::NoRun), Ok(65_535), Ok(0)][..], MOST_IMAGES));
        let refused: Result<super::Each, Refusal> = Err(Refusal::ImageLength);
        let answer = numbers(refused);
        assert_eq!((answer[0], answer[1..].iter().sum::<u32>()), (4, 0));
    }
}
