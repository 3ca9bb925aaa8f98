//! The polygon of a fit as two chains of ends of ranges and two lines, and the polygon with one more range.

use super::chains::{Chains, Part};
use super::ends::{Bar, Ends};
use super::line::{Line, Point};

/// The chains of high ends and of low ends, the line of least slope and the line of greatest slope.
#[derive(Clone, Copy)]
pub struct Polygon {
    pub upper: Part,
    pub lower: Part,
    pub slow: Line,
    pub fast: Line,
}

impl Polygon {
    /// The polygon whose chains are the first n entries of their slices.
    fn of_first_entries(n: usize, slow: Line, fast: Line) -> Self {
        let entries = Part { start: 0, end: n };
        Polygon { upper: entries, lower: entries, slow, fast }
    }

    /// The polygon of ranges i and k.
    pub fn of_two(ends: Ends<false>, chains: &mut Chains, i: u32, k: u32) -> Self {
        let slow = Line::through(ends.top(i), ends.bottom(k));
        let fast = Line::through(ends.bottom(i), ends.top(k));
        if ends.has_width(i) && ends.has_width(k) {
            chains.up[..2].copy_from_slice(&[i, k]);
            chains.down[..2].copy_from_slice(&[i, k]);
            return Self::of_first_entries(2, slow, fast);
        }
        let only = if ends.has_width(i) { k } else { i };
        chains.up[0] = only;
        chains.down[0] = only;
        Self::of_first_entries(1, slow, fast)
    }

    /// The same polygon with one line for both.
    fn alone(self, line: Line) -> Self {
        Polygon { slow: line, fast: line, ..self }
    }

    /// Every value negated, so that the chains and the lines change places.
    fn mirror(self) -> Self {
        Polygon { upper: self.lower, lower: self.upper, slow: self.fast.negated(), fast: self.slow.negated() }
    }

    /// The lines at or below the top of range k, where slow is below it and fast above it.
    fn cut<const M: bool>(self, ends: Ends<M>, chains: &mut Chains, k: u32) -> Self {
        let trimmed = chains.trim(ends, self.upper, self.lower, k);
        let mut end = trimmed.end;
        // The top joins the chain unless the fit is a mere segment of lines.
        if trimmed.fast.is_steeper_than(trimmed.slow) {
            chains.up[end] = k;
            end += 1;
        }
        Polygon {
            upper: Part { end, ..self.upper },
            lower: Part { start: trimmed.start, ..self.lower },
            slow: self.slow,
            fast: trimmed.fast,
        }
    }

    /// The lines at or below the top of range k.
    fn cut_above<const M: bool>(self, ends: Ends<M>, chains: &mut Chains, k: u32) -> Self {
        let top = ends.top(k);
        if !self.fast.is_above(top) {
            self
        } else if self.slow.reaches(top) {
            self.alone(self.slow)
        } else {
            self.cut(ends, chains, k)
        }
    }

    /// The lines at or above the bottom of range k: the cut above in the mirror.
    fn cut_below(self, ends: Ends<false>, chains: &mut Chains, k: u32) -> Self {
        let cut = self.mirror().cut_above(ends.mirror(), &mut chains.mirror(), k);
        cut.mirror()
    }

    /// The lines through the one value of range k.
    fn cut_to_point(self, ends: Ends<false>, chains: &mut Chains, k: u32) -> Self {
        let point = ends.top(k);
        if self.slow.reaches(point) {
            return self.alone(self.slow);
        }
        if self.fast.is_above(point) {
            let trimmed = chains.trim(ends, self.upper, self.lower, k);
            chains.up[0] = k;
            chains.down[0] = k;
            return Self::of_first_entries(1, trimmed.slow, trimmed.fast);
        }
        if self.fast.reaches(point) {
            return self.alone(self.fast);
        }
        self
    }

    /// The fast line of those at or below a top, of which there are some.
    fn fast_below<const M: bool>(self, ends: Ends<M>, chains: &Chains, top: Point) -> Line {
        if !self.fast.is_above(top) {
            self.fast
        } else if self.slow.reaches(top) {
            self.slow
        } else {
            chains.fast_to(ends, self.lower, top)
        }
    }

    /// The slow and the fast line with one range more, which joins the run; the polygon itself is not made.
    pub fn lines_with(self, ends: Ends<false>, chains: &mut Chains, range: Bar) -> (Line, Line) {
        let fast = self.fast_below(ends, chains, range.top);
        let slow = self.mirror().fast_below(ends.mirror(), &chains.mirror(), range.bottom.negated());
        (slow.negated(), fast)
    }

    /// The polygon after range k, which joins the run.
    pub fn join(self, ends: Ends<false>, chains: &mut Chains, k: u32) -> Self {
        if ends.has_width(k) {
            self.cut_above(ends, chains, k).cut_below(ends, chains, k)
        } else {
            self.cut_to_point(ends, chains, k)
        }
    }
}
