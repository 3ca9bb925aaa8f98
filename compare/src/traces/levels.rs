//! Service levels where something happens: at the ends of ranges, where a corner of a fit is at the segment's last
//! time, at the last time of all and one after it, at multiples of the step next to these, and at the edges of the span.

use super::small::inside;
use crate::random::Random;
use crate::segments::Stage;
use crate::trace::{LARGEST_VALUE, LAST_TIME, LEAST_VALUE, Range};

pub fn level(ranges: &[Range], stages: &[Stage], step: u32, random: &mut Random) -> i32 {
    match random.below(8) {
        0 => random.between(-20, 20) as i32,
        1 => random.pick(&[LEAST_VALUE, LEAST_VALUE + 1, LARGEST_VALUE - 1, LARGEST_VALUE]),
        2 => at_an_end(ranges, random).unwrap_or(0),
        _ => at_a_corner(ranges, stages, step, random).unwrap_or(7),
    }
}

fn at_an_end(ranges: &[Range], random: &mut Random) -> Option<i32> {
    if ranges.is_empty() {
        return None;
    }
    let range = ranges[random.below(ranges.len())];
    let end = random.pick(&[range.low, range.high]) as i128;
    Some(inside(end + random.between(-1, 1) as i128))
}

fn at_a_corner(ranges: &[Range], stages: &[Stage], step: u32, random: &mut Random) -> Option<i32> {
    let bounded: Vec<&Stage> = stages.iter().filter(|stage| !stage.corners.is_empty()).collect();
    if bounded.is_empty() {
        return None;
    }
    let stage = random.pick(&bounded);
    let corner = random.pick(&stage.corners);
    let last = ranges[stage.end - 1].time as i64;
    let end = LAST_TIME as i64;
    let near = random.between(last, (last + 100).min(end));
    let far = random.between(last, end);
    let time = random.pick(&[last, near, far, end, end, end + 1]);
    let time = if random.one_in(2) { time } else { multiple_near(time, step as i64, random) };
    let value = corner.floor(time as i128);
    Some(inside(value + random.pick(&[-1, 0, 0, 0, 1])))
}

/// The multiple of a step at a time or before it, or the next one.
fn multiple_near(time: i64, step: i64, random: &mut Random) -> i64 {
    time - time % step + random.pick(&[0, step])
}
