//! The traces that are measured, in three shapes, one of them upside down as well.

use crate::random::Random;
use humoraki::{Direction, LEAST_STEP, Trace};

/// Large, so that the times have as many digits in a short trace as in a long one.
const FIRST_TIME: i64 = 10_000_000;

#[derive(Clone, Copy, PartialEq)]
pub enum Shape {
    /// Ranges about a rising line: one segment, of whose fit few ranges cut off anything.
    LongSegment,
    /// Ranges in no order: a segment has two or three of them.
    ShortSegments,
    /// The same upside down, on falling traces.
    FallingSegments,
    /// Highs on a bowl and lows on its mirror image: every end is a corner of the fit.
    LargeChains,
}

fn trace(level: i32, ranges: impl Iterator<Item = (i64, i64, i64)>) -> Trace {
    let mut trace = Trace {
        address: 1,
        level,
        direction: Direction::Rising,
        step: LEAST_STEP,
        times: Vec::new(),
        lows: Vec::new(),
        highs: Vec::new(),
    };
    for (time, low, high) in ranges {
        trace.times.push(time as u32);
        trace.lows.push(low as i32);
        trace.highs.push(high as i32);
    }
    trace
}

fn long_segment(n: usize, random: &mut Random) -> Trace {
    let slope = random.between(5, 50);
    let mut time = FIRST_TIME;
    let ranges = (0..n).map(|_| {
        time += random.between(300, 900);
        let value = slope * time / 1000;
        let low = value - random.between(0, 2000);
        let high = value + 1 + random.between(0, 2000);
        (time, low, high)
    });
    trace(200_000_000, ranges)
}

fn short_segments(n: usize, random: &mut Random) -> Trace {
    let mut time = FIRST_TIME;
    let ranges = (0..n).map(|_| {
        time += random.between(300, 900);
        let value = random.between(0, 20_000);
        let low = value - random.between(0, 4000);
        let high = value + random.between(0, 4000);
        (time, low, high)
    });
    trace(40_000, ranges)
}

fn falling_segments(n: usize, random: &mut Random) -> Trace {
    let rising = short_segments(n, random);
    let negated = |values: &[i32]| values.iter().map(|value| -value).collect();
    let (lows, highs) = (negated(&rising.highs), negated(&rising.lows));
    Trace { level: -rising.level, direction: Direction::Falling, lows, highs, ..rising }
}

fn large_chains(n: usize, random: &mut Random) -> Trace {
    let middle = n as i64 / 2;
    // Bend and step go with the length, so that times and values are as large in a short trace as in a long one.
    let bend = random.between(80_000_000, 100_000_000) / (middle * middle);
    let step = random.between(2_000_000, 3_000_000) / n as i64;
    let ranges = (0..n as i64).map(|k| {
        let away = k - middle;
        // As wide in the middle as it rises to the ends: less, and the outer ends would be no corners.
        let half_width = bend * (middle * middle + away * away);
        (FIRST_TIME + k * step, -half_width, half_width)
    });
    trace(200_000_000, ranges)
}

/// A number of traces of one shape with n ranges each.
pub fn traces(shape: Shape, n: usize, number: usize) -> Vec<Trace> {
    let mut random = Random::new(n as u64);
    let make = match shape {
        Shape::LongSegment => long_segment,
        Shape::ShortSegments => short_segments,
        Shape::FallingSegments => falling_segments,
        Shape::LargeChains => large_chains,
    };
    (0..number).map(|_| make(n, &mut random)).collect()
}
