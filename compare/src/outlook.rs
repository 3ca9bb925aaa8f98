//! The outlook of a segment from the corners of its fit.
//!
//! At any time the highest and the lowest line of the fit are among the corners, so the corners answer for all lines.

use crate::line::Line;
use crate::trace::{FALLING, LAST_TIME, Service};

#[derive(Clone, PartialEq, Eq, Debug)]
pub enum Outlook {
    Open,
    Lines { slow: Line, fast: Line, some: Option<u32>, all: Option<u32> },
}

/// The outlook of a segment that ends at `last`; it has no corners if it has one range.
pub fn outlook(corners: &[Line], last: u32, service: Service) -> Outlook {
    let slow = corners.iter().min_by(|a, b| a.order(b));
    let fast = corners.iter().max_by(|a, b| a.order(b));
    let (Some(&slow), Some(&fast)) = (slow, fast) else {
        return Outlook::Open;
    };
    let spans: Vec<Span> = corners.iter().map(|line| reached(line, last, service)).collect();
    let some = spans.iter().filter_map(|span| span.first_multiple(service.step)).min();
    let all = spans.into_iter().fold(Span::after(last), Span::common).first_multiple(service.step);
    Outlook::Lines { slow, fast, some: some.map(time), all: all.map(time) }
}

/// The whole times from `from` to `to`, none if `from` is above `to`.
struct Span {
    from: i128,
    to: i128,
}

impl Span {
    /// All times from the last one on.
    fn after(last: u32) -> Span {
        Span { from: last as i128, to: LAST_TIME as i128 }
    }

    /// The times of both.
    fn common(self, other: Span) -> Span {
        Span { from: self.from.max(other.from), to: self.to.min(other.to) }
    }

    /// The least multiple of a step among the times.
    fn first_multiple(&self, step: u32) -> Option<i128> {
        let over = self.from.rem_euclid(step as i128);
        let multiple = if over == 0 { self.from } else { self.from - over + step as i128 };
        (multiple <= self.to).then_some(multiple)
    }
}

/// The times from the last time on at which one line is at or above the level, or at or below it if the trace falls.
fn reached(line: &Line, last: u32, service: Service) -> Span {
    let whole = Span::after(last);
    let bound = line.d * service.level as i128 - line.q;
    if service.direction == FALLING { at_most(line.p, bound, whole) } else { at_least(line.p, bound, whole) }
}

/// The times at which p·t is not below the bound.
fn at_least(p: i128, bound: i128, whole: Span) -> Span {
    match p.signum() {
        1 => Span { from: whole.from.max(-(-bound).div_euclid(p)), ..whole },
        -1 => Span { to: whole.to.min((-bound).div_euclid(-p)), ..whole },
        _ if bound <= 0 => whole,
        _ => Span { from: whole.to + 1, ..whole },
    }
}

/// The times at which p·t is not above the bound.
fn at_most(p: i128, bound: i128, whole: Span) -> Span {
    match p.signum() {
        1 => Span { to: whole.to.min(bound.div_euclid(p)), ..whole },
        -1 => Span { from: whole.from.max(-bound.div_euclid(-p)), ..whole },
        _ if bound >= 0 => whole,
        _ => Span { from: whole.to + 1, ..whole },
    }
}

fn time(t: i128) -> u32 {
    u32::try_from(t).expect("a time inside its span")
}
