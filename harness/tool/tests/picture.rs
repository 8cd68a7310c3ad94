//! The map: well formed, and true.

mod common;
use common::{letters, Bench};

/// Every tag is closed in its order.
fn well_formed(svg: &str) {
    let mut open: Vec<&str> = Vec::new();
    for tag in svg.split('<').skip(1) {
        let tag = tag.split('>').next().unwrap();
        if let Some(name) = tag.strip_prefix('/') {
            assert_eq!(open.pop(), Some(name));
        } else if !tag.ends_with('/') {
            open.push(tag.split(' ').next().unwrap());
        }
    }
    assert!(open.is_empty(), "{open:?}");
    assert!(svg.starts_with("<svg xmlns=\"http://www.w3.org/2000/svg\" ") && svg.ends_with("</svg>\n"));
}

/// The cells that the legend counts.
fn counted(svg: &str) -> usize {
    let number = |line: &str| {
        let counted = line.split(": ").nth(1)?;
        let counted = counted.strip_suffix(" cells</text>").or(counted.strip_suffix(" cell</text>"))?;
        counted.parse::<usize>().ok()
    };
    svg.lines().filter(|line| line.starts_with("<text")).filter_map(number).sum()
}

#[test]
fn cells_by_use_and_chains() {
    let bench = Bench::with_store("map");
    let empty = bench.run("map s").accepted().out.clone();
    well_formed(&empty);
    assert!(empty.contains("s: 0 of 64 cells occupied") && empty.contains("no version is held"));
    assert_eq!(counted(&empty), 64);
    for (till, text) in [(0, "ABCDEFGH"), (1, "ABCDEFGHI"), (0, "ABCDEFGHJK"), (0, "ABCDEFGHJL")] {
        bench.fed(&format!("backup s {till} -"), &letters(text)).accepted();
    }
    let svg = bench.run("map s").accepted().out.clone();
    well_formed(&svg);
    let said = [
        "s: 12 of 64 cells occupied",
        ">free: 52 cells<",
        ">shared by several tills: 8 cells<",
        ">till 0, one version: 2 cells<",               // K of version 2, L of version 3
        ">till 0, shared by several versions: 1 cell<", // J
        ">till 1, one version: 1 cell<",                // I
        ">till 1, shared by several versions: 0 cells<",
        "<title>till 0, version 1: longest chain 2</title>",
        "<title>till 0, version 2: longest chain 1</title>",
        "<title>till 0, version 3: longest chain 0</title>",
        "<title>till 1, version 1: longest chain 0</title>",
        ">4 of 8 records in use, 3 whole; eight positions each<",
        ">null, of a record in use: 19 positions<",
        ">removed: 1 position<",
    ];
    said.iter().for_each(|words| assert!(svg.contains(words), "{words} is not in {svg}"));
    assert_eq!(counted(&svg), 64);
    bench.run("map s --output m.svg").accepted().says("s: drawn to m.svg");
    assert_eq!(bench.read("m.svg"), svg.as_bytes());
    assert_eq!(bench.run("map s --output -").accepted().out, svg);
}

/// A version that has a segment twice is still one version.
#[test]
fn repeated_blocks_are_not_shared() {
    let bench = Bench::with_store("map-repeated");
    bench.fed("backup s 1 -", &letters("ABCDEFGHABCDEFGH")).accepted();
    let svg = bench.run("map s").accepted().out.clone();
    assert!(svg.contains(">till 1, one version: 8 cells<") && svg.contains(">free: 56 cells<"), "{svg}");
}

#[test]
fn the_largest_store() {
    let bench = Bench::new("map-largest");
    bench.run("init s --blocks 1024").accepted();
    for till in 0..16 {
        let image: Vec<u8> = (0..65_536u32).map(|n| (n / 64 * 7 + till * (n % 2) + 1) as u8).collect();
        bench.fed(&format!("backup s {till} -"), &image).accepted();
    }
    let svg = bench.run("map s").accepted().out.clone();
    well_formed(&svg);
    assert_eq!(counted(&svg), 32_768);
}
