//! The fit as a polygon of slope and intercept, cut by one half-plane after the other: exact, and quick enough for
//! the longest traces. No use is made of which ends a corner touches.

use crate::line::Line;
use crate::trace::Range;

/// The corners of the fit with one range more, from the corners before (of no use for the first two ranges), in
/// corner order; none if no line fits.
pub fn corners(before: &[Line], ranges: &[Range]) -> Vec<Line> {
    let [.., earlier, range] = ranges else {
        return Vec::new();
    };
    if ranges.len() == 2 {
        return from_least_slope(two_strips(earlier, range));
    }
    cut_by(before, range)
}

/// The corners that a further range, before all others or after them, leaves of a fit, in corner order; none if no line
/// fits.
pub fn cut_by(corners: &[Line], range: &Range) -> Vec<Line> {
    let time = range.time as i128;
    let kept = cut(corners, |line| line.above(range.low as i128, time));
    let kept = cut(&kept, |line| -line.above(range.high as i128, time));
    from_least_slope(kept)
}

/// Two strips cross in four corners, clockwise as corner order is; some are one where a low is a high.
fn two_strips(first: &Range, second: &Range) -> Vec<Line> {
    let ends =
        [(first.high, second.low), (first.high, second.high), (first.low, second.high), (first.low, second.low)];
    let line = |(value, then)| Line::through(first.time, value, second.time, then);
    without_repeats(ends.map(|ends| line(ends).in_lowest_terms()).to_vec())
}

/// The part of a polygon where `inside`, which is linear, is not below 0.
fn cut(polygon: &[Line], inside: impl Fn(&Line) -> i128) -> Vec<Line> {
    let Some(mut before) = polygon.last() else {
        return Vec::new();
    };
    let mut there = inside(before);
    let mut kept = Vec::with_capacity(polygon.len() + 1);
    for corner in polygon {
        let here = inside(corner);
        if (here > 0 && there < 0) || (here < 0 && there > 0) {
            kept.push(crossing(before, there.abs(), corner, here.abs()));
        }
        if here >= 0 {
            kept.push(*corner);
        }
        (before, there) = (corner, here);
    }
    without_repeats(kept)
}

/// The weighted mean of two lines that leaves neither inside nor outside: each counts by how far the other is off.
fn crossing(from: &Line, off: i128, to: &Line, to_off: i128) -> Line {
    let mean =
        Line { p: from.p * to_off + to.p * off, q: from.q * to_off + to.q * off, d: from.d * to_off + to.d * off };
    mean.in_lowest_terms()
}

/// A polygon that has shrunk to a segment or a point names a corner twice in a row.
fn without_repeats(mut polygon: Vec<Line>) -> Vec<Line> {
    polygon.dedup();
    if polygon.len() > 1 && polygon.first() == polygon.last() {
        polygon.pop();
    }
    polygon
}

fn from_least_slope(mut polygon: Vec<Line>) -> Vec<Line> {
    let places = 0..polygon.len();
    if let Some(least) = places.min_by(|&a, &b| polygon[a].order(&polygon[b])) {
        polygon.rotate_left(least);
    }
    polygon
}
