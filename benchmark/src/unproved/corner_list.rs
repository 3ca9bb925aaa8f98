//! The corners of the fit into three lent slices, each in lowest terms.

use super::chains::{Chains, Part};
use super::ends::Ends;
use super::line::{Line, Point};
use super::polygon::Polygon;
use humoraki::lent::Lines;

/// A line in lowest terms, stored at a place of the three slices.
fn put(out: &mut Lines, at: usize, line: Line) {
    let line = line.reduced();
    out.ps[at] = line.p;
    out.qs[at] = line.q;
    out.ds[at] = line.d;
}

/// The lines through neighbours of a chain, from a place on, and the place after them.
fn list_chain(end_of: impl Fn(u32) -> Point, chain: &[u32], part: Part, out: &mut Lines, mut at: usize) -> usize {
    for pair in chain[part.start..part.end].windows(2) {
        put(out, at, Line::through(end_of(pair[0]), end_of(pair[1])));
        at += 1;
    }
    at
}

/// The corners in corner order, and their number.
pub fn list_corners(ends: Ends<false>, chains: &Chains, polygon: Polygon, out: &mut Lines) -> usize {
    put(out, 0, polygon.slow);
    if !polygon.fast.is_steeper_than(polygon.slow) {
        return 1;
    }
    let at = list_chain(|k| ends.top(k), chains.up, polygon.upper, out, 1);
    put(out, at, polygon.fast);
    list_chain(|k| ends.bottom(k), chains.down, polygon.lower, out, at + 1)
}
