//! The colours of the picture. They differ in lightness too, so that they can be told apart without their hues; what
//! one version alone needs is hatched.

use crate::shared::Use;
use crate::table::Position;
use crate::words::counted;

/// What a place of the picture shows: a cell, or a position of a record.
#[derive(Clone, Copy, Debug, PartialEq, Eq)]
pub enum Mark {
    /// A cell, or the position that holds it. A position of a free record is free.
    Cell(Use),
    Null,
    Blank,
    Removed,
}

const FREE: &str = "#eceff1";
const TILLS: &str = "#101418";
const NULL: &str = "#ffffff";
const BLANK: &str = "#f2deb0";
/// A colour for each till. Neighbours are far apart in lightness.
const COLOURS: [&str; 16] = [
    "#7c1212", "#179e3e", "#8f20de", "#c7b21c", "#0f5766", "#eb75b5", "#308613", "#c4c2f6", "#763311", "#18a771",
    "#b61cc4", "#a5ca1d", "#165a9d", "#ee8a9e", "#159320", "#dbcaf7",
];

pub fn colour(till: usize) -> &'static str {
    COLOURS[till % COLOURS.len()]
}

/// Every mark, in the order of the legend.
pub fn marks() -> impl Iterator<Item = Mark> {
    let tills = (0..COLOURS.len()).flat_map(|till| [Use::Single(till), Use::Versions(till)]);
    let cells = [Use::Free, Use::Tills].into_iter().chain(tills).map(Mark::Cell);
    cells.chain([Mark::Null, Mark::Blank, Mark::Removed])
}

impl Mark {
    /// The mark of a record's position, given the use of each cell.
    pub fn of(position: Position, free: bool, uses: &[Use]) -> Mark {
        match position {
            Position::Held { cell } => Mark::Cell(uses.get(cell).copied().unwrap_or(Use::Free)),
            Position::Removed => Mark::Removed,
            Position::Blank => Mark::Blank,
            Position::Null if free => Mark::Cell(Use::Free),
            Position::Null => Mark::Null,
        }
    }

    pub fn words(self) -> String {
        match self {
            Mark::Cell(Use::Free) => "free".into(),
            Mark::Cell(Use::Tills) => "shared by several tills".into(),
            Mark::Cell(Use::Single(till)) => format!("till {till}, one version"),
            Mark::Cell(Use::Versions(till)) => format!("till {till}, shared by several versions"),
            Mark::Null => "null, of a record in use".into(),
            Mark::Blank => "blank".into(),
            Mark::Removed => "removed".into(),
        }
    }

    /// So many of them, for the legend.
    pub fn counted(self, number: usize) -> String {
        let one = if matches!(self, Mark::Cell(_)) { "cell" } else { "position" };
        format!("{}: {}", self.words(), counted(number as u64, one))
    }

    /// The attribute that paints it.
    pub fn fill(self) -> String {
        match self {
            Mark::Cell(Use::Free) => format!("fill=\"{FREE}\""),
            Mark::Cell(Use::Tills) => format!("fill=\"{TILLS}\""),
            Mark::Cell(Use::Single(till)) => format!("fill=\"url(#till{till})\""),
            Mark::Cell(Use::Versions(till)) => format!("fill=\"{}\"", colour(till)),
            Mark::Null => format!("fill=\"{NULL}\""),
            Mark::Blank => format!("fill=\"{BLANK}\""),
            Mark::Removed => "fill=\"url(#removed)\"".into(),
        }
    }

    /// The hatching that it needs, if any.
    pub fn pattern(self) -> Option<String> {
        match self {
            Mark::Cell(Use::Single(till)) => Some(hatched(&format!("till{till}"), colour(till), NULL)),
            Mark::Removed => Some(hatched("removed", NULL, TILLS)),
            _ => None,
        }
    }
}

fn hatched(name: &str, ground: &str, line: &str) -> String {
    format!(
        "<pattern id=\"{name}\" width=\"4\" height=\"4\" patternUnits=\"userSpaceOnUse\">\
         <rect width=\"4\" height=\"4\" fill=\"{ground}\"/>\
         <path d=\"M0 4L4 0\" stroke=\"{line}\" stroke-width=\"1.2\"/></pattern>\n"
    )
}

#[cfg(test)]
mod tests {
    use super::{BLANK, COLOURS, FREE, NULL, TILLS};

    /// The lightness of a colour, 0 for black to 100 for white (CIE L*).
    fn lightness(colour: &str) -> f64 {
        let part = |at: usize| f64::from(u8::from_str_radix(&colour[at..at + 2], 16).unwrap()) / 255.0;
        let linear = |part: f64| if part <= 0.04045 { part / 12.92 } else { ((part + 0.055) / 1.055).powf(2.4) };
        let [red, green, blue] = [1, 3, 5].map(|at| linear(part(at)));
        116.0 * (0.2126 * red + 0.7152 * green + 0.0722 * blue).cbrt() - 16.0
    }

    #[test]
    fn colours_differ_in_lightness() {
        let mut all: Vec<f64> =
            COLOURS.iter().chain(&[FREE, TILLS, NULL, BLANK]).map(|colour| lightness(colour)).collect();
        all.sort_by(f64::total_cmp);
        assert!(all.windows(2).all(|pair| pair[1] - pair[0] >= 3.5), "{all:?}");
        let neighbours = COLOURS.windows(2).map(|pair| (lightness(pair[0]) - lightness(pair[1])).abs());
        assert!(neighbours.into_iter().all(|apart| apart >= 12.0));
    }
}
