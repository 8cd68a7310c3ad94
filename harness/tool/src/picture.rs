//! The picture of a store, as SVG: its cells and its records by use, side by side, a legend, and the longest chain of
//! each version.

use crate::palette::{colour, marks, Mark};
use crate::shared::{count, Use};
use crate::table::{Position, Version};
use crate::words::counted;

/// Of the cells and of the records.
const WIDTH: usize = 768;
const MARGIN: usize = 24;
const RIGHT: usize = WIDTH + 2 * MARGIN;

/// What is drawn.
pub struct Drawing<'a> {
    pub name: &'a str,
    pub uses: &'a [Use],
    pub records: &'a [Vec<Position>],
    pub tills: &'a [Vec<Version>],
}

/// A picture that grows downwards.
struct Picture {
    body: String,
    y: usize,
}

pub fn draw(drawing: &Drawing) -> String {
    let cells: Vec<Mark> = drawing.uses.iter().map(|one| Mark::Cell(*one)).collect();
    let positions = positions(drawing);
    let mut picture = Picture { body: String::new(), y: MARGIN };
    picture.titles(drawing);
    let heights = [picture.grid(0, &cells, 1), picture.grid(RIGHT, &positions, positions_each(drawing))];
    picture.y += heights[0].max(heights[1]);
    picture.legend(&cells, &positions, drawing.tills);
    picture.chains(drawing.tills);
    let (width, height) = (RIGHT + WIDTH + 2 * MARGIN, picture.y + MARGIN);
    let used = marks().filter(|mark| cells.contains(mark) || positions.contains(mark) || shown(*mark, drawing.tills));
    let patterns: String = used.filter_map(Mark::pattern).collect();
    format!(
        "<svg xmlns=\"http://www.w3.org/2000/svg\" width=\"{width}\" height=\"{height}\" \
         viewBox=\"0 0 {width} {height}\" font-family=\"sans-serif\" font-size=\"13\" role=\"img\">\n\
         <title>{}</title>\n<defs>\n{patterns}</defs>\n\
         <rect width=\"{width}\" height=\"{height}\" fill=\"#ffffff\"/>\n{}</svg>\n",
        escaped(drawing.name),
        picture.body
    )
}

/// The positions of all records, one record after the other.
fn positions(drawing: &Drawing) -> Vec<Mark> {
    let of = |record: &Vec<Position>| -> Vec<Mark> {
        record.iter().map(|position| Mark::of(*position, is_free(record), drawing.uses)).collect()
    };
    drawing.records.iter().flat_map(of).collect()
}

/// How many positions a record has, the same in all.
fn positions_each(drawing: &Drawing) -> usize {
    drawing.records.first().map_or(1, Vec::len)
}

/// Whether a record is free: all its positions are null.
pub fn is_free(record: &[Position]) -> bool {
    record.iter().all(|position| *position == Position::Null)
}

/// Whether a record in use has lost no position.
pub fn is_whole(record: &[Position]) -> bool {
    !is_free(record) && !record.contains(&Position::Removed)
}

impl Picture {
    fn text(&mut self, x: usize, attributes: &str, words: &str) {
        let (x, y) = (MARGIN + x, self.y);
        self.body.push_str(&format!("<text x=\"{x}\" y=\"{y}\"{attributes}>{}</text>\n", escaped(words)));
    }

    fn heading(&mut self, x: usize, words: &str) {
        self.text(x, " font-size=\"17\" font-weight=\"bold\"", words);
    }

    fn titles(&mut self, drawing: &Drawing) {
        let Drawing { name, uses, records, .. } = drawing;
        let occupied = uses.len() - count(uses, Use::Free);
        let (free, whole) = (|record: &&Vec<Position>| !is_free(record), |record: &&Vec<Position>| is_whole(record));
        let (in_use, whole) = (records.iter().filter(free).count(), records.iter().filter(whole).count());
        self.y += 20;
        self.heading(0, &format!("{name}: {occupied} of {} occupied", counted(uses.len() as u64, "cell")));
        let records = counted(records.len() as u64, "record");
        let each = in_letters(positions_each(drawing));
        self.heading(RIGHT, &format!("{in_use} of {records} in use, {whole} whole; {each} positions each"));
        self.y += 16;
    }

    /// Marks in rows, from the left and from the top, so many always in one row; those of one kind that lie side by
    /// side are one piece.
    fn grid(&mut self, x: usize, all: &[Mark], together: usize) -> usize {
        let columns = columns(all.len(), together);
        let side = (WIDTH / columns).min(32);
        for mark in marks().filter(|mark| all.contains(mark)) {
            let mut path = String::new();
            for (row, marks) in all.chunks(columns).enumerate() {
                for (from, length) in runs(marks, mark) {
                    let (x, y, width) = (MARGIN + x + from * side, self.y + row * side, length * side);
                    path.push_str(&format!("M{x} {y}h{width}v{side}h-{width}z"));
                }
            }
            let title = escaped(&mark.words());
            self.body.push_str(&format!("<path d=\"{path}\" {}><title>{title}</title></path>\n", mark.fill()));
        }
        all.len().div_ceil(columns) * side
    }

    /// What the colours mean, with how many there are of each.
    fn legend(&mut self, cells: &[Mark], positions: &[Mark], tills: &[Vec<Version>]) {
        self.y += 8;
        for (n, mark) in marks().filter(|mark| shown(*mark, tills)).enumerate() {
            let x = n % 4 * (RIGHT / 2);
            self.y += if n % 4 == 0 { 20 } else { 0 };
            let (left, top) = (MARGIN + x, self.y - 11);
            self.body.push_str(&format!(
                "<rect x=\"{left}\" y=\"{top}\" width=\"13\" height=\"13\" stroke=\"#90a4ae\" {}/>\n",
                mark.fill()
            ));
            let number = if matches!(mark, Mark::Cell(_)) { count(cells, mark) } else { count(positions, mark) };
            self.text(x + 20, "", &mark.counted(number));
        }
        self.y += 12;
    }

    fn chains(&mut self, tills: &[Vec<Version>]) {
        self.y += 20;
        self.heading(0, "Longest chain of each version, the oldest version first");
        self.y += 20;
        if tills.iter().all(|versions| versions.is_empty()) {
            self.y += 12;
            self.text(0, "", "no version is held");
        }
        for (till, versions) in tills.iter().enumerate().filter(|(_, versions)| !versions.is_empty()) {
            self.chains_of(till, versions);
        }
    }

    /// A till's row: a box for each version with its longest chain, the stronger the longer.
    fn chains_of(&mut self, till: usize, versions: &[Version]) {
        self.y += 20;
        let held = match versions {
            [first, .., last] => format!("till {till}: {} to {}", first.number, last.number),
            [only] => format!("till {till}: {}", only.number),
            [] => return,
        };
        self.text(0, " font-size=\"10\"", &held);
        for (n, version) in versions.iter().enumerate() {
            let (x, chain) = (124 + n * 14, version.chain());
            let strength = 0.1 + 0.4 * f64::from(chain) / 63.0;
            let (left, top, number) = (MARGIN + x, self.y - 11, version.number);
            self.body.push_str(&format!(
                "<g><title>till {till}, version {number}: longest chain {chain}</title>\
                 <rect x=\"{left}\" y=\"{top}\" width=\"13\" height=\"15\" fill=\"{}\" fill-opacity=\"{strength:.2}\"/>\n",
                colour(till)
            ));
            self.text(x + 6, " font-size=\"9\" text-anchor=\"middle\"", &chain.to_string());
            self.body.push_str("</g>\n");
        }
    }
}

/// Whether the legend has it: tills that hold nothing are left out.
fn shown(mark: Mark, tills: &[Vec<Version>]) -> bool {
    match mark {
        Mark::Cell(Use::Single(till) | Use::Versions(till)) => {
            tills.get(till).is_some_and(|versions| !versions.is_empty())
        }
        _ => true,
    }
}

/// The numbers of positions that a record can have.
fn in_letters(number: usize) -> String {
    match number {
        4 => "four".into(),
        8 => "eight".into(),
        16 => "sixteen".into(),
        other => other.to_string(),
    }
}

/// Places side by side: twice as many columns as rows, at most 256, and always whole records.
fn columns(places: usize, together: usize) -> usize {
    let mut columns = together.max(8);
    while columns < 256 && columns * columns < 2 * places {
        columns *= 2;
    }
    columns
}

/// The places and lengths of the runs of one mark.
fn runs(marks: &[Mark], mark: Mark) -> Vec<(usize, usize)> {
    let mut at = 0;
    let mut runs = Vec::new();
    for run in marks.chunk_by(|one, other| one == other) {
        if run.first() == Some(&mark) {
            runs.push((at, run.len()));
        }
        at += run.len();
    }
    runs
}

/// Text of XML. Characters that XML cannot have are shown as a question mark.
fn escaped(text: &str) -> String {
    let mut escaped = String::new();
    for c in text.chars() {
        match c {
            '&' => escaped.push_str("&amp;"),
            '<' => escaped.push_str("&lt;"),
            '>' => escaped.push_str("&gt;"),
            '\u{0}'..='\u{1f}' | '\u{7f}' | '\u{fffe}' | '\u{ffff}' => escaped.push('?'),
            c => escaped.push(c),
        }
    }
    escaped
}
