//! Traces grown range by range, each new end on a corner of the fit so far, or one off it: corners that are just
//! touched, fits that shrink to a segment or a point, ranges that just close a segment.

use super::small::inside;
use crate::line::Line;
use crate::random::Random;
use crate::segments::{BY_CLIPPING, Stage};
use crate::trace::{LAST_TIME, Range};

/// How far ahead a time is sought at which a corner has a whole value.
const FAR: u32 = 60;

/// So many ranges, or fewer where the times end.
pub fn grown(count: usize, random: &mut Random) -> Vec<Range> {
    let late = LAST_TIME - 10 * FAR - random.below(1000) as u32;
    let start = random.pick(&[0, 0, 1, 1_000_000, late]);
    let mut ranges: Vec<Range> = Vec::new();
    let mut stage = Stage::default();
    let size = random.pick(&[3, 12, 100_000_000]);
    while ranges.len() < count {
        let next = match random.below(stage.corners.len() + 1) {
            0 => apart(&ranges, start, size, random),
            corner => at_corner(&ranges, &stage.corners[corner - 1], size, random),
        };
        let Some(next) = next else {
            return ranges;
        };
        ranges.push(next);
        stage = stage.next(&ranges, BY_CLIPPING).unwrap_or_default();
    }
    ranges
}

/// A range that pays no heed to the fit.
fn apart(ranges: &[Range], start: u32, size: i64, random: &mut Random) -> Option<Range> {
    let time = match ranges.last() {
        None => start,
        Some(last) => last.time.checked_add(1 + random.below(4) as u32)?,
    };
    let low = random.between(-size, size) as i128;
    let high = low + random.between(0, size) as i128;
    Some(Range { time, low: inside(low), high: inside(high) })
}

/// A range with an end on a corner, or one off it.
fn at_corner(ranges: &[Range], corner: &Line, size: i64, random: &mut Random) -> Option<Range> {
    let last = ranges.last()?.time;
    let from = last.checked_add(1 + random.below(3) as u32)?;
    let whole = |time: &u32| (corner.p * *time as i128 + corner.q) % corner.d == 0;
    let time = (from..from.saturating_add(FAR)).find(whole).unwrap_or(from);
    let end = corner.floor(time as i128) + random.pick(&[-1, 0, 0, 0, 0, 1]);
    let width = if random.one_in(4) { 0 } else { random.between(0, size) as i128 };
    let (low, high) = if random.one_in(2) { (end, end + width) } else { (end - width, end) };
    Some(Range { time, low: inside(low), high: inside(high) })
}
