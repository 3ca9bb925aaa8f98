//! The ends of ranges as points, as they are or in the mirror, and a range by itself.

use super::line::Point;
use humoraki::lent::Ranges;

/// The two ends of one range.
#[derive(Clone, Copy)]
pub struct Bar {
    pub top: Point,
    pub bottom: Point,
}

impl Bar {
    pub fn of(time: u32, low: i32, high: i32) -> Self {
        let end = |value: i32| Point { time: i64::from(time), value: i64::from(value) };
        Bar { top: end(high), bottom: end(low) }
    }
}

/// The ranges as one side sees them: their tops are the highs, or in the mirror the lows, negated. The side is known at
/// compile time, so that each has code of its own.
#[derive(Clone, Copy)]
pub struct Ends<'a, const MIRRORED: bool> {
    times: &'a [u32],
    tops: &'a [i32],
    bottoms: &'a [i32],
}

impl<'a> Ends<'a, false> {
    pub fn of(ranges: Ranges<'a>) -> Self {
        Ends { times: ranges.times, tops: ranges.highs, bottoms: ranges.lows }
    }

    pub fn mirror(self) -> Ends<'a, true> {
        Ends { times: self.times, tops: self.bottoms, bottoms: self.tops }
    }
}

impl<const MIRRORED: bool> Ends<'_, MIRRORED> {
    fn point(self, values: &[i32], k: u32) -> Point {
        let value = i64::from(values[k as usize]);
        Point { time: i64::from(self.times[k as usize]), value: if MIRRORED { -value } else { value } }
    }

    pub fn top(self, k: u32) -> Point {
        self.point(self.tops, k)
    }

    pub fn bottom(self, k: u32) -> Point {
        self.point(self.bottoms, k)
    }

    pub fn bar(self, k: u32) -> Bar {
        Bar { top: self.top(k), bottom: self.bottom(k) }
    }

    pub fn has_width(self, k: u32) -> bool {
        self.bottom(k).value < self.top(k).value
    }
}
