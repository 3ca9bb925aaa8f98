//! Long traces by formula.

use super::grown::grown;
use super::small::inside;
use crate::line::Line;
use crate::random::Random;
use crate::trace::{LARGEST_VALUE, LAST_TIME, LEAST_VALUE, Range};

type Formula = fn(usize, &mut Random) -> Vec<Range>;

/// Each shape by its number of ranges.
pub const SHAPES: [Formula; 11] = [
    |count, _| full(count),
    |count, _| bowl(count, 1, 1),
    |count, _| bowl(count, LAST_TIME / count as u32, 30),
    points_on_a_line,
    nearest_to_a_line,
    line_and_noise,
    zigzag,
    walk,
    drift,
    parabola,
    grown,
];

/// Every value in every range, one apart.
pub fn full(count: usize) -> Vec<Range> {
    let range = |time| Range { time, low: LEAST_VALUE, high: LARGEST_VALUE };
    (0..count as u32).map(range).collect()
}

/// Highs on a parabola that opens upwards and lows on one that opens downwards, so far apart that every end is on an
/// edge of the fit: twice as many corners as ranges.
fn bowl(count: usize, gap: u32, steep: i128) -> Vec<Range> {
    let middle = count as i128 / 2;
    let range = |place: usize| {
        let away = place as i128 - middle;
        let height = steep * (away * away + middle * middle + 1);
        Range { time: place as u32 * gap, low: inside(-height), high: inside(height) }
    };
    (0..count).map(range).collect()
}

fn points_on_a_line(count: usize, random: &mut Random) -> Vec<Range> {
    let slope = random.between(-60_000, 60_000) as i128;
    let first = random.below(1000) as u32;
    let range = |place: usize| {
        let value = inside(slope * place as i128 + 3);
        Range { time: first + place as u32, low: value, high: value }
    };
    (0..count).map(range).collect()
}

/// The whole values below and above a line, over all times.
fn nearest_to_a_line(count: usize, random: &mut Random) -> Vec<Range> {
    let gap = LAST_TIME / count as u32;
    let end = random.between(0, LARGEST_VALUE as i64) as i32;
    let line = Line::through(0, -end, LAST_TIME, LARGEST_VALUE);
    let range = |place: usize| {
        let time = place as u32 * gap + random.below(gap as usize) as u32;
        let value = line.floor(time as i128);
        Range { time, low: inside(value), high: inside(value + 1) }
    };
    (0..count).map(range).collect()
}

fn line_and_noise(count: usize, random: &mut Random) -> Vec<Range> {
    let line = Line { p: random.between(-500, 500) as i128, q: 7, d: 13 };
    let range = |place: usize| {
        let time = 3 * place as u32 + random.below(3) as u32;
        let value = line.floor(time as i128);
        let low = value - random.between(0, 400) as i128;
        let high = value + 1 + random.between(0, 400) as i128;
        Range { time, low: inside(low), high: inside(high) }
    };
    (0..count).map(range).collect()
}

/// No three in a row are on a line: segments of two ranges.
fn zigzag(count: usize, _: &mut Random) -> Vec<Range> {
    let range = |place: usize| {
        let value = [LEAST_VALUE, LARGEST_VALUE][place % 2];
        Range { time: place as u32, low: value, high: value }
    };
    (0..count).map(range).collect()
}

fn walk(count: usize, random: &mut Random) -> Vec<Range> {
    let mut time = 0;
    let mut value = 0;
    let range = |_| {
        time += 1 + random.below(5) as u32;
        value += random.between(-3, 3) as i128;
        Range { time, low: inside(value), high: inside(value + random.between(0, 4) as i128) }
    };
    (0..count).map(range).collect()
}

/// Slow creep with a width, at ragged times, and a fall at about every 150th range.
fn drift(count: usize, random: &mut Random) -> Vec<Range> {
    let mut time = 0;
    let mut value = 0;
    let range = |_| {
        let gap = 1 + random.below(1_000_000) as u32;
        time += gap;
        value += gap as i128 / 1000;
        if random.one_in(150) {
            value -= random.between(0, 200_000) as i128;
        }
        let low = value - random.between(500, 2000) as i128;
        let high = value + random.between(500, 2000) as i128;
        Range { time, low: inside(low), high: inside(high) }
    };
    (0..count).map(range).collect()
}

/// Segments of a few hundred ranges, whose ends on one side are all on a hull.
fn parabola(count: usize, random: &mut Random) -> Vec<Range> {
    let width = random.between(10_000, 60_000) as i128;
    let middle = count as i128 / 2;
    let range = |place: usize| {
        let away = place as i128 - middle;
        let value = away * away;
        Range { time: place as u32, low: inside(value), high: inside(value + width) }
    };
    (0..count).map(range).collect()
}
