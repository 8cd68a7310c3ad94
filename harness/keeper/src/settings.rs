//! The page's day at other settings, each with its numbers worked out by hand from the page.

use crate::day::days_of;
use crate::trial::{letters, Trial};
use terms::{Calls, Capacities};

/// The page's store with other measures and so many cells.
fn of_page(store: &dyn Calls, measures: [u32; 3], cells: u32) -> Trial<'_> {
    Trial::new(store, Capacities::new(1, 4, 16, 8, cells).measured(measures))
}

/// Cases 1 to 6 and 11 with larger blocks.
pub fn larger_blocks(store: &dyn Calls) {
    [128, 256, 512].into_iter().for_each(|bytes| days_of(store, bytes));
    let mut one = of_page(store, [512, 8, 20], 32);
    assert_eq!((one.pool.len(), one.table.len()), (16_384, 240));
    let short = &letters("ABCDEFGH", 512)[..4_000];
    assert_eq!(one.backup(short), [0, 1]);
    assert_eq!((one.tally(), one.table[13]), ([0, 8, 1, 8], 4_000));
    assert_eq!(one.pool[3_584..4_096], [[b'H'; 416].as_slice(), &[0; 96]].concat());
    let mut output = [3; 4_096];
    assert_eq!(one.restore(1, &mut output[..3_999]), [5, 0, 0]);
    assert_eq!(one.restore(1, &mut output), [0, 4_000, 0]);
    assert!(output[..4_000] == *short && output[4_000..] == [3; 96]);
    assert_eq!(one.backup(&[1; 8_193]), [4, 0]);
    assert_eq!(one.backup(&[1; 8_192]), [0, 2]);
}

/// At 0 percent whatever remains is copied together, at 100 percent nothing ever is.
pub fn ends_of_the_percentage(store: &dyn Calls) {
    let mut one = of_page(store, [64, 8, 0], 32);
    one.file("ABCDEFGH");
    assert_eq!(one.file("AIJKLMNO"), [0, 2]);
    assert_eq!((one.tally(), one.picture()), ([0, 15, 2, 15], "........AIJKLMNOBCDEFGH".into()));
    let counts = [0, 1, 1, 1, 1, 1, 1, 1];
    assert_eq!(one.record(0), (254, 1, &[0, 16, 17, 18, 19, 20, 21, 22][..], &counts[..]));

    let mut one = of_page(store, [64, 8, 0], 16);
    one.file("ABCDEFGH");
    assert_eq!(one.file("AIJKLMNO"), [0, 2]);
    assert_eq!((one.tally(), one.picture()), ([0, 15, 2, 15], ".BCDEFGHAIJKLMNO".into()));

    let mut one = of_page(store, [64, 8, 100], 32);
    one.file("ABCDEFGH");
    assert_eq!(one.file("ABCDEFGZ"), [0, 2]);
    assert_eq!((one.tally(), one.picture()), ([0, 9, 2, 9], ".......HABCDEFGZ".into()));
    assert_eq!(one.record(0), (128, 127, &[0, 0, 0, 0, 0, 0, 0, 7][..], &[0, 0, 0, 0, 0, 0, 0, 1][..]));
    assert_eq!(one.file("ABCDEFGH"), [0, 3]);
    assert_eq!((one.tally(), one.picture()), ([0, 10, 3, 10], ".......H.......ZABCDEFGH".into()));
    assert_eq!(one.retire(1), [0, 512]);
    assert_eq!((one.tally(), one.picture()), ([0, 9, 2, 9], "...............ZABCDEFGH".into()));
}

/// The percentage at which a record that loses so many positions is just copied together, and the next, at which its
/// freed cells are only cleared.
pub fn percentages_between(store: &dyn Calls) {
    for (blocks, percent, first, then, copied, cleared) in [
        (4, 25, "ABCD", "AIJK", "....AIJKBCD", ".BCDAIJK"),
        (4, 75, "ABCD", "ABCI", "....ABCID", "...DABCI"),
        (8, 12, "ABCDEFGH", "AIJKLMNO", "........AIJKLMNOBCDEFGH", ".BCDEFGHAIJKLMNO"),
        (8, 25, "ABCDEFGH", "ABIJKLMN", "........ABIJKLMNCDEFGH", "..CDEFGHABIJKLMN"),
        (8, 87, "ABCDEFGH", "ABCDEFGZ", "........ABCDEFGZH", ".......HABCDEFGZ"),
        (16, 6, "ABCDEFGHIJKLMNOP", "Abcdefghijklmnop", COPIED, ".BCDEFGHIJKLMNOPAbcdefghijklmnop"),
        (16, 93, "ABCDEFGHIJKLMNOP", "ABCDEFGHIJKLMNOZ", ALONE, "...............PABCDEFGHIJKLMNOZ"),
    ] {
        for (percent, picture) in [(percent, copied), (percent + 1, cleared)] {
            let mut one = of_page(store, [64, blocks, percent], 64);
            one.file(first);
            assert_eq!(one.file(then), [0, 2]);
            assert_eq!(one.picture(), picture, "{blocks} blocks per segment, {percent} percent");
        }
    }
}

const COPIED: &str = "................AbcdefghijklmnopBCDEFGHIJKLMNOP";
const ALONE: &str = "................ABCDEFGHIJKLMNOZP";

/// Cases 1 to 3 with segments of four blocks: the first half of the image is shared, the second alone is placed.
pub fn four_blocks(store: &dyn Calls) {
    let mut one = of_page(store, [64, 4, 20], 32);
    assert_eq!((one.table.len(), &one.table[..8]), (176, &[1, 4, 16, 8, 32, 64, 4, 20][..]));
    assert_eq!(one.file("ABCDEFGH"), [0, 1]);
    assert_eq!((one.tally(), one.picture()), ([0, 8, 2, 8], "ABCDEFGH".into()));
    assert_eq!(one.record(1), (15, 0, &[4, 5, 6, 7][..], &[1; 4][..]));
    assert_eq!(one.table[15..23], [0, 1, 2, 3, 16, 17, 18, 19].map(|n| 16_777_216 + n));
    assert_eq!(one.file("ABCDEFGZ"), [0, 2]);
    assert_eq!((one.tally(), one.picture()), ([0, 9, 3, 9], "ABCD....EFGZH".into()));
    assert_eq!(one.record(1), (8, 7, &[0, 0, 0, 12][..], &[0, 0, 0, 1][..]));
    assert_eq!(one.file("ABCDEFGH"), [0, 3]);
    assert_eq!((one.tally(), one.picture()), ([0, 10, 4, 10], "ABCDEFGH....HZ".into()));
    assert_eq!(one.restore(1, &mut [0; 512]), [0, 512, 2]);

    let mut one = of_page(store, [64, 4, 20], 32);
    let image = [vec![0; 256], letters("ABCD", 64)].concat();
    assert_eq!((one.backup(&image), one.tally()), ([0, 1], [0, 4, 1, 4]));
    assert_eq!((one.file("ABCDABCD"), one.tally()), ([0, 2], [0, 4, 1, 8]));
}

/// Cases 1, 2 and 9 with segments of sixteen blocks.
pub fn sixteen_blocks(store: &dyn Calls) {
    let mut one = of_page(store, [64, 16, 20], 64);
    assert_eq!((one.table.len(), &one.table[..8]), (368, &[1, 4, 16, 8, 64, 64, 16, 20][..]));
    assert_eq!(one.file("ABCDEFGHIJKLMNOP"), [0, 1]);
    assert_eq!((one.record(0).0, one.record(0).3), (65_535, &[1; 16][..]));
    assert_eq!(one.file("ABCDEFGHIJKLMNOZ"), [0, 2]);
    assert_eq!((one.tally(), one.picture()), ([0, 17, 2, 17], ALONE.into()));
    assert_eq!((one.record(0).0, one.record(0).1, one.record(0).2[15]), (32_768, 32_767, 32));
    assert_eq!((one.table[30], one.table[49]), (16_777_231, 16_777_247));

    let mut one = of_page(store, [64, 16, 20], 64);
    assert_eq!((one.file("ABCDEFGH"), one.tally()), ([0, 1], [0, 8, 1, 8]));
    assert_eq!((one.file("ABCDEFGHABCDEFGH"), one.tally()), ([0, 2], [0, 16, 1, 16]));

    let mut one = of_page(store, [64, 16, 20], 64);
    one.file("ABCDEFGHIJKLMNOP");
    assert_eq!(one.file("ABCdefghijklmnop"), [0, 2]);
    assert_eq!((one.tally()[1], one.picture()), (29, "...DEFGHIJKLMNOPABCdefghijklmnop".into()));

    let mut one = of_page(store, [64, 16, 20], 64);
    one.file("ABCDEFGHIJKLMNOP");
    assert_eq!(one.file("ABCDefghijklmnop"), [0, 2]);
    assert_eq!((one.tally()[1], one.picture()), (28, "................ABCDefghijklmnopEFGHIJKLMNOP".into()));
}

/// Large blocks in large segments: an image of 65,536 bytes is 128 blocks, 8 segments.
pub fn largest_image(store: &dyn Calls) {
    let mut one = Trial::new(store, Capacities::new(1, 2, 128, 8, 128).measured([512, 16, 20]));
    let image: Vec<u8> = (0..65_536u32).map(|n| (n / 256 + 1) as u8).collect();
    assert_eq!(one.backup(&vec![1; 65_537]), [4, 0]);
    assert_eq!((one.backup(&image), one.tally()), ([0, 1], [0, 128, 8, 128]));
    let mut output = vec![0; 65_536];
    assert_eq!(one.restore(1, &mut output), [0, 65_536, 0]);
    assert!(output == image && one.pool == image);
}
