//! The fit by brute force: every line through an end of one range and an end of a later one is tried on all ranges.
//!
//! These lines, where they fit, are the corners. A fitting line that touches the ends of one range or of none can be
//! turned a little both ways about that end and still fits, so it is between two others. A fitting line that touches
//! an end of each of two ranges is between no two others: both would have to pass through these two ends.

use crate::line::{Line, turn};
use crate::trace::Range;

/// The corners of the fit of two or more ranges in corner order; none if no line fits.
pub fn corners(ranges: &[Range]) -> Vec<Line> {
    let fitting = fitting_lines(ranges);
    let mut lines: Vec<Line> = fitting.into_iter().map(Line::in_lowest_terms).collect();
    lines.sort_by(Line::order);
    lines.dedup();
    in_corner_order(&lines)
}

/// Whether some line fits every range of a run that is not empty.
pub fn has_line(run: &[Range]) -> bool {
    run.len() == 1 || !fitting_lines(run).is_empty()
}

fn fitting_lines(ranges: &[Range]) -> Vec<Line> {
    let mut lines = Vec::new();
    for (place, range) in ranges.iter().enumerate() {
        for later in &ranges[place + 1..] {
            for value in [range.low, range.high] {
                for then in [later.low, later.high] {
                    lines.push(Line::through(range.time, value, later.time, then));
                }
            }
        }
    }
    lines.retain(|line| ranges.iter().all(|range| line.fits(range)));
    lines
}

/// Least slope, above the diagonal by rising slope, greatest slope, below the diagonal by falling slope.
fn in_corner_order(rising: &[Line]) -> Vec<Line> {
    let (Some(&least), Some(&greatest)) = (rising.first(), rising.last()) else {
        return Vec::new();
    };
    let side = |line: &&Line| turn(&least, &greatest, line);
    let above = rising.iter().filter(|line| side(line) > 0);
    let below = rising.iter().rev().filter(|line| side(line) < 0);
    let mut ordered = vec![least];
    ordered.extend(above);
    if greatest != least {
        ordered.push(greatest);
    }
    ordered.extend(below);
    ordered
}
