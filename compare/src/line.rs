//! Lines in whole numbers: the value at t is (p·t + q)/d, d above 0.

use crate::trace::Range;
use std::cmp::Ordering;

#[derive(Clone, Copy, PartialEq, Eq, Debug)]
pub struct Line {
    pub p: i128,
    pub q: i128,
    pub d: i128,
}

impl Line {
    /// The line with one value at one time and another value at a later time, in any terms.
    pub fn through(time: u32, value: i32, later: u32, then: i32) -> Line {
        let (time, value) = (time as i128, value as i128);
        let (later, then) = (later as i128, then as i128);
        let p = then - value;
        let d = later - time;
        Line { p, q: value * d - p * time, d }
    }

    /// The line with no common divisor above 1, so that equal lines have equal numbers.
    pub fn in_lowest_terms(self) -> Line {
        assert!(self.d > 0, "a line with d = {}", self.d);
        let divisor = common_divisor(common_divisor(self.p, self.q), self.d);
        Line { p: self.p / divisor, q: self.q / divisor, d: self.d / divisor }
    }

    /// d times how far the line is above a value at a time.
    pub fn above(&self, value: i128, time: i128) -> i128 {
        self.p * time + self.q - self.d * value
    }

    pub fn fits(&self, range: &Range) -> bool {
        let time = range.time as i128;
        self.above(range.low as i128, time) >= 0 && self.above(range.high as i128, time) <= 0
    }

    /// The largest whole number that is not above the line at a time.
    pub fn floor(&self, time: i128) -> i128 {
        (self.p * time + self.q).div_euclid(self.d)
    }

    /// By slope, and by intercept where the slopes are equal.
    pub fn order(&self, other: &Line) -> Ordering {
        let slopes = (self.p * other.d).cmp(&(other.p * self.d));
        slopes.then_with(|| (self.q * other.d).cmp(&(other.q * self.d)))
    }
}

/// In the plane of slope (to the right) and intercept (up): above 0 if `third` is on the left of the way from `first`
/// to `second`, 0 if the three are on one straight line.
pub fn turn(first: &Line, second: &Line, third: &Line) -> i128 {
    first.p * (second.q * third.d - third.q * second.d)
        + second.p * (third.q * first.d - first.q * third.d)
        + third.p * (first.q * second.d - second.q * first.d)
}

fn common_divisor(a: i128, b: i128) -> i128 {
    let (mut a, mut b) = (a.abs(), b.abs());
    while b != 0 {
        (a, b) = (b, a % b);
    }
    a
}
