//! The day's counterparts at other settings, and headers of tables, put to the proved store and to the twin.

use keeper::settings;
use keeper::Random;
use std::collections::BTreeSet;
use terms::{Calls, Capacities, BASE, BLOCK_BYTES, SEGMENT_BLOCKS};
use trials::compare::{compare, each_call};
use trials::stores;

fn both(case: impl Fn(&dyn Calls)) {
    stores().iter().for_each(|store| case(store.as_ref()));
}

#[test]
fn larger_blocks() {
    both(settings::larger_blocks);
}

#[test]
fn ends_of_the_percentage() {
    both(settings::ends_of_the_percentage);
}

#[test]
fn percentages_between() {
    both(settings::percentages_between);
}

#[test]
fn four_blocks() {
    both(settings::four_blocks);
}

#[test]
fn sixteen_blocks() {
    both(settings::sixteen_blocks);
}

#[test]
fn largest_image() {
    both(settings::largest_image);
}

const PAGE: Capacities = Capacities::new(1, 4, 16, 8, 32);

/// Whether both stores find a sound one, empty, in a table with this header and in buffers of these lengths.
fn is_sound_in(header: [u32; 8], pool_bytes: usize, table_words: usize) -> bool {
    let table = [&header[..], &vec![0; table_words - 8]].concat();
    let of_page = [&PAGE.header()[..], &[0; 232]].concat();
    let calls = each_call(&mut Random::new(1), &vec![0; PAGE.pool_bytes()], &of_page);
    let refusals = compare(&vec![0; pool_bytes], &table, &calls);
    assert!(!refusals.contains(&10) || refusals == BTreeSet::from([10]));
    !refusals.contains(&10)
}

/// The same with all eight numbers written out, and buffers of the lengths that they ask for.
fn is_sound(written: Capacities) -> bool {
    is_sound_in(written.to_array(), written.pool_bytes(), written.table_words())
}

/// Every setting has one header: the page's measures stand as zeros, all others as they are.
#[test]
fn headers_of_all_settings() {
    assert!(is_sound_in(PAGE.header(), PAGE.pool_bytes(), PAGE.table_words()));
    assert!(!is_sound(PAGE), "64 8 20 written out");
    for (bytes, blocks) in BLOCK_BYTES.into_iter().flat_map(|bytes| SEGMENT_BLOCKS.map(|blocks| (bytes, blocks))) {
        for percent in 0..=102 {
            let measures = [bytes, blocks, percent];
            assert_eq!(is_sound(PAGE.measured(measures)), percent <= 100 && measures != BASE, "{measures:?}");
        }
    }
}

/// Sizes that no store has.
#[test]
fn other_headers() {
    for bytes in [0, 1, 8, 32, 63, 65, 96, 127, 192, 384, 511, 513, 1_024] {
        assert!(!is_sound(PAGE.measured([bytes, 8, 20])), "blocks of {bytes} bytes");
    }
    for blocks in [0, 1, 2, 3, 5, 6, 7, 9, 12, 15, 17, 32, 64] {
        assert!(!is_sound(PAGE.measured([64, blocks, 20])), "segments of {blocks} blocks");
        assert!(!is_sound(PAGE.measured([128, blocks, 20])), "segments of {blocks} blocks");
    }
    for bytes in BLOCK_BYTES {
        for (more, sound) in [(0, true), (1, false), (65_536 / bytes, false)] {
            let capacities = Capacities { blocks: 65_536 / bytes + more, ..PAGE.measured([bytes, 4, 20]) };
            assert_eq!(is_sound(capacities), sound, "{} blocks of {bytes} bytes", capacities.blocks);
        }
    }
}

/// Zeros stand for the page's measures all three together or not at all; 64 8 0 is another setting.
#[test]
fn zeros_in_headers() {
    for (measures, sound) in [
        ([0, 0, 0], true),
        ([64, 0, 0], false),
        ([0, 8, 0], false),
        ([64, 8, 0], true),
        ([0, 0, 20], false),
        ([64, 0, 20], false),
        ([0, 8, 20], false),
    ] {
        let header = PAGE.measured(measures).to_array();
        assert_eq!(is_sound_in(header, PAGE.pool_bytes(), PAGE.table_words()), sound, "{measures:?}");
    }
}
