//! The run that begins at a range and goes as far as some line fits it.

use super::chains::Chains;
use super::ends::{Bar, Ends};
use super::line::Line;
use super::polygon::Polygon;

/// The number of the range after a run's last, and the run's polygon; a run of one range has none.
pub struct Reach {
    pub end: u32,
    pub polygon: Option<Polygon>,
}

/// Whether a range has no line with the run: slow is above it, or fast is below it.
fn closes(polygon: &Polygon, range: Bar) -> bool {
    polygon.slow.is_above(range.top) || !polygon.fast.reaches(range.bottom)
}

/// The run from range i on, among the first n.
pub fn run_from(ends: Ends<false>, chains: &mut Chains, i: u32, n: u32) -> Reach {
    if n - i < 2 {
        return Reach { end: n, polygon: None };
    }
    let mut polygon = Polygon::of_two(ends, chains, i, i + 1);
    let mut k = i + 2;
    while k < n && !closes(&polygon, ends.bar(k)) {
        polygon = polygon.join(ends, chains, k);
        k += 1;
    }
    Reach { end: k, polygon: Some(polygon) }
}

/// The polygon of the segment then running after the first k ranges.
pub fn last_polygon(ends: Ends<false>, chains: &mut Chains, k: u32) -> Option<Polygon> {
    let mut reach = run_from(ends, chains, 0, k);
    while reach.end < k {
        reach = run_from(ends, chains, reach.end, k);
    }
    reach.polygon
}

/// The slow and the fast line of the segment running after the first n ranges, with one range more, if it joins.
pub fn last_lines(ends: Ends<false>, chains: &mut Chains, n: u32, range: Bar) -> Option<(Line, Line)> {
    if n == 0 {
        return None;
    }
    match last_polygon(ends, chains, n) {
        None => {
            let only = ends.bar(n - 1);
            Some((Line::through(only.top, range.bottom), Line::through(only.bottom, range.top)))
        }
        Some(polygon) if closes(&polygon, range) => None,
        Some(polygon) => Some(polygon.lines_with(ends, chains, range)),
    }
}
