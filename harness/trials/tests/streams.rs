//! Versions as streams: the proved writer and reader against a plain reading of the page.

use keeper::Random;
use lurdempos::Proved;
use std::collections::BTreeMap;
use terms::{Calls, Capacities, BLOCK, LONGEST_IMAGE, LONGEST_STREAM, OWNER, SEGMENT};
use trials::{seed, times};
use twin::{stream_of, Twin};

const GROUP: usize = SEGMENT * BLOCK;
const UNTOUCHED: u8 = 0xa5;

/// Both readers answer alike and leave the same output, which a refusal leaves alone, and an accepted call behind the
/// length. What is accepted is the stream of the image that it gives.
fn read(stream: &[u8], room: usize) -> u32 {
    let (mut output, mut plain) = (vec![UNTOUCHED; room], vec![UNTOUCHED; room]);
    let [refusal, length] = Proved.read_stream(stream, &mut output);
    assert_eq!([refusal, length], Twin.read_stream(stream, &mut plain), "{} bytes, room {room}", stream.len());
    assert!(output == plain, "{} bytes, room {room}: outputs differ", stream.len());
    assert!(output[length as usize..].iter().all(|&byte| byte == UNTOUCHED), "written too far");
    assert_eq!(refusal == 0, length != 0);
    if refusal == 0 {
        assert!(stream_of(&output[..length as usize]) == stream, "a second stream of one image");
    }
    refusal
}

/// A block of one of six sorts: null, all 255, one byte at the start or at the end, any two.
fn block(random: &mut Random) -> [u8; BLOCK] {
    let mut block = [0; BLOCK];
    match random.below(6) {
        0 | 1 => {}
        2 => block.fill(255),
        3 => block[0] = random.between(1, 255) as u8,
        4 => block[BLOCK - 1] = random.between(1, 255) as u8,
        _ => random.fill(&mut block),
    }
    block
}

/// A length up to the limit, often at the edge of a block or of a group.
fn length(random: &mut Random, limit: usize) -> usize {
    let near = *random.pick(&[1, BLOCK, GROUP, limit]) * random.between(1, 9);
    match random.below(4) {
        0 => random.between(1, limit),
        n => (near + n - 2).clamp(1, limit),
    }
}

fn image(random: &mut Random, limit: usize) -> Vec<u8> {
    let length = length(random, limit);
    let mut image: Vec<u8> = (0..length.div_ceil(BLOCK)).flat_map(|_| block(random)).collect();
    image.truncate(length);
    image
}

/// A store of any measures with this image as its only version.
fn store_with(random: &mut Random, image: &[u8]) -> (Vec<u8>, Vec<u32>) {
    let [bytes, blocks, percent] = random.measures();
    let most = LONGEST_IMAGE / bytes;
    let capacities = Capacities::new(1, 2, most, most.div_ceil(blocks), most).measured([bytes, blocks, percent]);
    let [0, words] = Proved.table_length(capacities) else { panic!("no length") };
    let (mut pool, mut table) = (vec![0; capacities.pool_bytes()], vec![0; words as usize]);
    assert_eq!(Proved.lay_out(&mut pool, &mut table, capacities), [0]);
    assert_eq!(Proved.backup(&mut pool, &mut table, OWNER, 0, image), [0, 1]);
    (pool, table)
}

/// Both writers answer alike and leave the same output.
fn write(pool: &[u8], table: &[u32], room: usize) -> ([u32; 2], Vec<u8>) {
    let (mut output, mut plain) = (vec![UNTOUCHED; room], vec![UNTOUCHED; room]);
    let answer = Proved.write_stream(pool, table, OWNER, 0, 1, &mut output);
    assert_eq!(answer, Twin.write_stream(pool, table, OWNER, 0, 1, &mut plain));
    assert!(output == plain, "outputs differ");
    (answer, output)
}

/// Random images in two stores of any measures: one stream, which is read back.
#[test]
fn whatever_the_measures() {
    let mut random = Random::new(seed());
    for round in 0..400 * times() {
        let limit = if round % 4 == 0 { LONGEST_IMAGE as usize } else { 5_000 };
        let image = image(&mut random, limit);
        let stream = stream_of(&image);
        for _ in 0..2 {
            let (pool, table) = store_with(&mut random, &image);
            let room = stream.len() + random.below(100);
            let (answer, output) = write(&pool, &table, room);
            assert_eq!(answer, [0, stream.len() as u32]);
            assert!(output[..stream.len()] == stream, "another stream");
            assert!(output[stream.len()..].iter().all(|&byte| byte == UNTOUCHED), "written too far");
            let (answer, output) = write(&pool, &table, stream.len() - 1 - random.below(stream.len()));
            assert_eq!(answer, [5, 0]);
            assert!(output.iter().all(|&byte| byte == UNTOUCHED), "altered though refused");
        }
        assert_eq!(read(&stream, image.len() + random.below(3)), 0);
        assert_eq!(read(&stream, image.len() - 1), 5);
    }
}

/// One of the things that happen to a stream on its way.
fn damage(random: &mut Random, stream: &mut Vec<u8>) {
    let at = random.below(stream.len().max(1));
    match random.below(9) {
        0 => stream.truncate(at),
        1 => stream.truncate(stream.len().saturating_sub(random.between(1, 65))),
        2 => stream.extend((0..random.between(1, 70)).map(|n| n as u8)),
        3 => stream.extend_from_slice(&[0; 64]),
        4 if !stream.is_empty() => stream[at] ^= 1 << random.below(8),
        5 if stream.len() > 4 => stream[4] ^= 1 << random.below(8),
        6 if stream.len() > 3 => stream[random.below(4)] = *random.pick(&[0, 1, 63, 64, 65, 255]),
        7 => stream[at..].iter_mut().take(64).for_each(|byte| *byte = 0),
        _ if !stream.is_empty() => *stream.last_mut().unwrap() = random.below(2) as u8,
        _ => {}
    }
}

/// Streams damaged in one place to three: what the plain reading says.
#[test]
fn damaged_streams() {
    let mut random = Random::new(seed());
    let mut met: BTreeMap<u32, usize> = BTreeMap::new();
    for _ in 0..100_000 * times() {
        let image = image(&mut random, 2_000);
        let mut stream = stream_of(&image);
        (0..random.between(1, 3)).for_each(|_| damage(&mut random, &mut stream));
        let room = if random.percent(90) { LONGEST_IMAGE as usize } else { image.len() };
        *met.entry(read(&stream, room)).or_default() += 1;
    }
    println!("{met:?}");
    assert!([0, 5, 24, 25, 26].iter().all(|number| met.get(number).is_some_and(|&often| often > 500)), "{met:?}");
}

/// Every beginning of a stream, and every bit of it flipped, alone and with bytes behind or missing.
#[test]
fn every_cut_and_every_bit() {
    let mut random = Random::new(seed());
    for length in [1, 64, 65, 511, 512, 513, 700] {
        let mut image: Vec<u8> = (0..length).map(|n| (n % 7) as u8).collect();
        image[length / 2..].iter_mut().take(128).for_each(|byte| *byte = 0);
        let stream = stream_of(&image);
        for end in 0..stream.len() {
            assert_eq!(read(&stream[..end], length), 24, "{end} of {}", stream.len());
        }
        for bit in 0..8 * stream.len() {
            let mut other = stream.clone();
            other[bit / 8] ^= 1 << (bit % 8);
            read(&other, LONGEST_IMAGE as usize);
            read(&[&other[..], &[0]].concat(), LONGEST_IMAGE as usize);
            read(&other[..random.below(other.len())], LONGEST_IMAGE as usize);
        }
    }
}

/// Bytes of any sort, most of them after a length that can be.
#[test]
fn any_bytes() {
    let mut random = Random::new(seed());
    for _ in 0..50_000 * times() {
        let mut stream = vec![0; random.below(400)];
        random.fill(&mut stream);
        if random.percent(90) && stream.len() > 4 {
            let length = length(&mut random, LONGEST_IMAGE as usize) as u32;
            stream[..4].copy_from_slice(&length.to_le_bytes());
            stream[4] &= random.number() as u8;
        }
        read(&stream, LONGEST_IMAGE as usize);
    }
}

/// The stream of an image of 65 bytes, both blocks with a bit, and its parts.
fn two_blocks(length: u32, map: u8, first: u8, after: u8) -> Vec<u8> {
    let mut second = [0; BLOCK];
    (second[0], second[BLOCK - 1]) = (11, after);
    [&length.to_le_bytes()[..], &[map], &[first; BLOCK], &second].concat()
}

/// The page's order, case by case.
#[test]
fn the_first_met_in_stream_order() {
    let sound = two_blocks(65, 3, 12, 0);
    assert_eq!((read(&sound, 65), sound.len()), (0, 133));
    // A stream without a length is 24; then 25, and 5 right after it, whatever follows.
    assert_eq!(read(&sound[..3], 65), 24);
    assert_eq!(read(&two_blocks(0, 3, 12, 0)[..4], 0), 25);
    assert_eq!(read(&65_537u32.to_le_bytes(), 65), 25);
    assert_eq!(read(&65_536u32.to_le_bytes(), 65_535), 5);
    assert_eq!(read(&sound[..4], 64), 5);
    assert_eq!(read(&two_blocks(65, 255, 0, 1), 64), 5);
    // A block cut short is 24 whatever its bytes.
    assert_eq!(read(&two_blocks(65, 3, 0, 0)[..68], 65), 24);
    assert_eq!(read(&two_blocks(65, 3, 12, 1)[..132], 65), 24);
    // A null block before a block cut short, and before an excess.
    assert_eq!(read(&two_blocks(65, 3, 0, 0)[..100], 65), 26);
    assert_eq!(read(&[&two_blocks(65, 3, 0, 0)[..], &[0]].concat(), 65), 26);
    // A missing block's bit stands in the map, before the blocks.
    assert_eq!(read(&two_blocks(65, 7, 12, 0), 65), 26);
    assert_eq!(read(&two_blocks(65, 131, 12, 0)[..68], 65), 26);
    // A byte after the length; an excess comes last.
    assert_eq!(read(&two_blocks(65, 3, 12, 1), 65), 26);
    assert_eq!(read(&[&two_blocks(65, 3, 12, 1)[..], &[0]].concat(), 65), 26);
    assert_eq!(read(&[&sound[..], &[0]].concat(), 65), 24);
    assert_eq!(stream_of(&[[7; BLOCK]; 1_024].concat()).len(), LONGEST_STREAM);
}
