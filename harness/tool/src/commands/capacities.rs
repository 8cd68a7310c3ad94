//! The capacities of a store on the command line, and in words.

use crate::arguments::Arguments;
use crate::json::Json;
use crate::store::Store;
use crate::syntax::{Opt, WAIT};
use crate::words::{bytes, counted};
use crate::Failure;
use lurdempos::{table_length, Capacities, Refusal, BASE, BLOCK_BYTES, LONGEST_IMAGE, SEGMENT_BLOCKS};

/// An option for each, in the page's order; the third is asked for in bytes or in blocks.
const NAMES: [&str; 8] = [
    "--tills",
    "--versions",
    "--blocks",
    "--records",
    "--cells",
    "--block-bytes",
    "--segment-blocks",
    "--rebuild-percent",
];
const IMAGE_BYTES: &str = "--image-bytes";
const MOST_PERCENT: u32 = 100;

/// The options of commands that lay out a store.
pub const OPTIONS: [Opt; 10] = [
    Opt::with("--tills", "N", "tills, 1 to 16, numbered from 0"),
    Opt::with("--versions", "N", "versions that each till can hold, 1 to 64"),
    Opt::with(IMAGE_BYTES, "N", "bytes of the longest image, 1 to 65536"),
    Opt::with("--blocks", "N", "the same in blocks, 1 to 1024 of 64 bytes, fewer of larger ones"),
    Opt::with("--records", "N", "segment records, 1 to 4096"),
    Opt::with("--cells", "N", "cells for the blocks, 1 to 32768"),
    Opt::with("--block-bytes", "N", "bytes of a block, and of a cell: 64, 128, 256 or 512"),
    Opt::with("--segment-blocks", "N", "blocks of a segment: 4, 8 or 16"),
    Opt::with("--rebuild-percent", "N", "0 to 100: a record that loses this part has the rest copied together"),
    WAIT,
];

/// Whether the command line asks for any.
pub fn any_asked(arguments: &Arguments) -> bool {
    NAMES.iter().chain(&[IMAGE_BYTES]).any(|option| arguments.value(option).is_some())
}

/// Those that the command line asks for, the others as given. The longest image stays as long if blocks get another
/// size.
pub fn asked(arguments: &Arguments, others: Capacities) -> Result<Capacities, Failure> {
    let number = |option, other| Ok(arguments.option_number(option)?.unwrap_or(other));
    let image = arguments.option_number(IMAGE_BYTES)?;
    if image.is_some() && arguments.value("--blocks").is_some() {
        return Err(arguments.wrong("--image-bytes and --blocks say the same; give one of them"));
    }
    let block_bytes = number("--block-bytes", others.block_bytes)?;
    let blocks = image.unwrap_or(others.image_bytes() as u32).div_ceil(possible(block_bytes));
    Ok(Capacities {
        tills: number("--tills", others.tills)?,
        versions: number("--versions", others.versions)?,
        blocks: number("--blocks", blocks)?,
        records: number("--records", others.records)?,
        cells: number("--cells", others.cells)?,
        block_bytes,
        segment_blocks: number("--segment-blocks", others.segment_blocks)?,
        rebuild_percent: number("--rebuild-percent", others.rebuild_percent)?,
    })
}

/// The block size, or the page's if a store cannot have it: it is refused later, and must not be divided by.
pub fn possible(block_bytes: u32) -> u32 {
    if BLOCK_BYTES.contains(&block_bytes) {
        block_bytes
    } else {
        BASE[0]
    }
}

/// An empty store of these capacities.
pub fn empty_store(arguments: &Arguments, capacities: Capacities) -> Result<Store, Failure> {
    let refused = |refusal| out_of_range(refusal, arguments, capacities);
    // Asked before anything is allocated: capacities out of range could ask for any amount.
    table_length(capacities).map_err(refused)?;
    Store::new(capacities).map_err(refused)
}

/// No store has these capacities.
fn out_of_range(refusal: Refusal, arguments: &Arguments, asked: Capacities) -> Failure {
    let limits = limits(asked);
    // The settings first, since the most blocks go by them.
    let here = wrong_setting(asked).or_else(|| wrong_number(arguments, asked, limits));
    let ranges: Vec<String> = NAMES.into_iter().zip(limits).map(range).collect();
    let settings: Vec<String> = NAMES[5..].iter().zip(choices()).map(|(name, can)| format!("{name} {can}")).collect();
    let advice = format!("choose each from its range: {}; {}.", ranges.join(", "), settings.join("; "));
    Failure::refused(refusal, here.unwrap_or_else(|| format!("{:?}", asked.to_array())), advice)
}

/// The most that each of the first five can be.
fn limits(asked: Capacities) -> [u32; 5] {
    let Capacities { tills, versions, blocks, records, cells, .. } =
        Capacities::largest([possible(asked.block_bytes), BASE[1], BASE[2]]);
    [tills, versions, blocks, records, cells]
}

fn range((name, most): (&str, u32)) -> String {
    match name {
        "--blocks" => format!("{IMAGE_BYTES} 1 to {LONGEST_IMAGE} (or {name} 1 to {most})"),
        _ => format!("{name} 1 to {most}"),
    }
}

/// What the three settings can be, in words.
fn choices() -> [String; 3] {
    [one_of(&BLOCK_BYTES), one_of(&SEGMENT_BLOCKS), format!("0 to {MOST_PERCENT}")]
}

/// Numbers to choose from: `4, 8 or 16`.
fn one_of(numbers: &[u32]) -> String {
    let words: Vec<String> = numbers.iter().map(u32::to_string).collect();
    match words.split_last() {
        Some((last, others)) if !others.is_empty() => format!("{} or {last}", others.join(", ")),
        _ => words.concat(),
    }
}

fn wrong_setting(asked: Capacities) -> Option<String> {
    let Capacities { block_bytes, segment_blocks, rebuild_percent, .. } = asked;
    let can =
        [BLOCK_BYTES.contains(&block_bytes), SEGMENT_BLOCKS.contains(&segment_blocks), rebuild_percent <= MOST_PERCENT];
    let wrong = can.iter().position(|can| !can)?;
    Some(format!("{} {}, but {} can be had", NAMES[5 + wrong], asked.measures()[wrong], choices()[wrong]))
}

fn wrong_number(arguments: &Arguments, asked: Capacities, limits: [u32; 5]) -> Option<String> {
    let mut numbers = NAMES.into_iter().zip(asked.to_array()).zip(limits);
    let ((name, one), most) = numbers.find(|((_, one), most)| !(1..=*most).contains(one))?;
    Some(match (name, arguments.value(IMAGE_BYTES)) {
        ("--blocks", Some(image)) => {
            format!("{IMAGE_BYTES} {}, but 1 to {LONGEST_IMAGE} can be had", image.to_string_lossy())
        }
        _ => format!("{name} {one}, but 1 to {most} can be had"),
    })
}

/// Capacities in words.
pub fn described(capacities: Capacities) -> String {
    let Capacities { tills, versions, records, cells, .. } = capacities;
    let (tills, versions) = (counted(tills, "till"), counted(versions, "version"));
    let (records, cells) = (counted(records, "record"), counted(cells, "cell"));
    let settings = measures_in_words(capacities).map(|words| format!(", {words}")).unwrap_or_default();
    format!("{tills} x {versions} of up to {}, {records}, {cells}{settings}", bytes(capacities.image_bytes()))
}

/// The settings of a store that has others than the page's.
pub fn measures_in_words(capacities: Capacities) -> Option<String> {
    let [bytes, blocks, percent] = capacities.measures();
    let words = format!("blocks of {bytes} bytes, segments of {blocks} blocks, rebuild at {percent} percent");
    (capacities.measures() != BASE).then_some(words)
}

/// Capacities for programs.
pub fn fields(capacities: Capacities) -> Json {
    let Capacities { tills, versions, blocks, records, cells, block_bytes, segment_blocks, rebuild_percent } =
        capacities;
    Json::object([
        ("tills", tills.into()),
        ("versions", versions.into()),
        ("blocks", blocks.into()),
        ("records", records.into()),
        ("cells", cells.into()),
        ("block_bytes", block_bytes.into()),
        ("segment_blocks", segment_blocks.into()),
        ("rebuild_percent", rebuild_percent.into()),
    ])
}
