//! Settings of small stores, in which lists of calls soon come to every end.

use crate::calls::Style;
use crate::Random;
use terms::Capacities;

/// Small capacities of every shape and any measures, and a style of list to go with them.
pub fn small(random: &mut Random) -> (Capacities, Style) {
    let measures = random.measures();
    // In eighths of a segment, so that segments of every size fill images and pools alike.
    let for_segments = |eighths: &u32| (eighths * measures[1] / 8).max(1);
    let tills = random.between(1, 4) as u32;
    let versions = random.between(1, 9) as u32;
    let blocks = for_segments(random.pick(&[1, 4, 7, 8, 9, 16, 20, 33]));
    let records = random.between(1, 40) as u32;
    let cells = for_segments(random.pick(&[1, 6, 12, 24, 50, 64, 65, 130, 300]));
    let style = Style { retires: *random.pick(&[5, 20, 45]), kinds: random.between(2, 14) };
    (Capacities::new(tills, versions, blocks, records, cells).measured(measures), style)
}
