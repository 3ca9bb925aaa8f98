//! The chains of a polygon as parts of two slices of range numbers, and what a new end leaves of them.

use super::ends::Ends;
use super::line::{Line, Point};

/// Room for the range numbers of the upper and of the lower chain.
pub struct Chains<'a> {
    pub up: &'a mut [u32],
    pub down: &'a mut [u32],
}

/// The entries of a slice from start up to, not including, end.
#[derive(Clone, Copy)]
pub struct Part {
    pub start: usize,
    pub end: usize,
}

/// What a new top leaves: the upper chain's end, the lower chain's start, and the lines from these to the new top.
pub struct Trimmed {
    pub end: usize,
    pub start: usize,
    pub slow: Line,
    pub fast: Line,
}

/// The end of a chain after the points at its end are gone whose line with the point before is at or above the new one.
fn pop_end(end_of: impl Fn(u32) -> Point, chain: &[u32], part: Part, new: Point) -> usize {
    let mut end = part.end;
    while part.start + 1 < end {
        let last = Line::through(end_of(chain[end - 2]), end_of(chain[end - 1]));
        if !last.reaches(new) {
            break;
        }
        end -= 1;
    }
    end
}

/// The start of a chain after the points at its head are gone whose line with the point after is at or above the new one.
fn drop_head(end_of: impl Fn(u32) -> Point, chain: &[u32], part: Part, new: Point) -> usize {
    let mut start = part.start;
    while start + 1 < part.end {
        let first = Line::through(end_of(chain[start]), end_of(chain[start + 1]));
        if !first.reaches(new) {
            break;
        }
        start += 1;
    }
    start
}

impl Chains<'_> {
    /// The steepest line of the fit to a top that is between the slow and the fast line.
    pub fn fast_to<const M: bool>(&self, ends: Ends<M>, lower: Part, top: Point) -> Line {
        let start = drop_head(|i| ends.bottom(i), self.down, lower, top);
        Line::through(ends.bottom(self.down[start]), top)
    }

    pub fn mirror(&mut self) -> Chains<'_> {
        Chains { up: self.down, down: self.up }
    }

    /// Both chains shortened at the top of range k, which is between the slow and the fast line.
    pub fn trim<const M: bool>(&self, ends: Ends<M>, upper: Part, lower: Part, k: u32) -> Trimmed {
        let new = ends.top(k);
        let end = pop_end(|i| ends.top(i), self.up, upper, new);
        let start = drop_head(|i| ends.bottom(i), self.down, lower, new);
        Trimmed {
            end,
            start,
            slow: Line::through(ends.top(self.up[end - 1]), new),
            fast: Line::through(ends.bottom(self.down[start]), new),
        }
    }
}
