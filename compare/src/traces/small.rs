//! Small traces, each of a kind that newcomers or a program could get wrong.

use super::addresses::address;
use super::grown;
use super::services::small_service;
use super::times::times;
use crate::line::Line;
use crate::random::Random;
use crate::trace::{LARGEST_VALUE, LEAST_VALUE, Range, Trace};

const MOST: usize = 10;

type Values = fn(&[u32], &mut Random) -> Vec<Range>;

/// The kinds that go by given times.
const KINDS: [(&str, Values); 7] = [
    ("small traces: tight ranges, small numbers", tight),
    ("small traces: along a line", along),
    ("small traces: points, most of them on a line", points),
    ("small traces: ranges that touch a line from above or below", touching),
    ("small traces: least and largest values", extreme),
    ("small traces: values anywhere", anywhere),
    ("small traces: many corners", bowl),
];

const GROWN: &str = "small traces: grown along the corners of the fit";
const EMPTY: &str = "small traces: empty";

/// The names of all kinds.
pub fn kinds() -> impl Iterator<Item = &'static str> {
    KINDS.iter().map(|(name, _)| *name).chain([GROWN, EMPTY])
}

/// A small trace at some level, in some direction.
pub fn small_trace(random: &mut Random) -> Trace {
    let (ranges, _) = small_ranges(random);
    Trace { address: address(random), service: small_service(random), ranges }
}

/// The ranges of a small trace, and what kind they are of.
pub fn small_ranges(random: &mut Random) -> (Vec<Range>, &'static str) {
    if random.one_in(100) {
        return (Vec::new(), EMPTY);
    }
    let count = 1 + random.below(MOST);
    if random.one_in(3) {
        return (grown::grown(count, random), GROWN);
    }
    let (name, values) = random.pick(&KINDS);
    (values(&times(count, random), random), name)
}

fn tight(times: &[u32], random: &mut Random) -> Vec<Range> {
    let (height, width) = (random.between(0, 8), random.between(0, 5));
    let range = |&time: &u32| {
        let low = random.between(-height, height) as i32;
        Range { time, low, high: low + random.between(0, width) as i32 }
    };
    times.iter().map(range).collect()
}

fn along(times: &[u32], random: &mut Random) -> Vec<Range> {
    let line = some_line(times, random);
    let width = random.between(0, 3);
    let range = |&time: &u32| {
        let value = line.floor(time as i128);
        let above = if line.above(value, time as i128) == 0 { 0 } else { 1 };
        let low = value - random.between(0, width) as i128;
        let high = value + above + random.between(0, width) as i128;
        Range { time, low: inside(low), high: inside(high) }
    };
    times.iter().map(range).collect()
}

fn points(times: &[u32], random: &mut Random) -> Vec<Range> {
    let line = some_line(times, random);
    let slips = random.pick(&[0, 0, 8, 3]);
    let range = |&time: &u32| {
        let slip = if slips > 0 && random.one_in(slips) { random.between(-1, 1) } else { 0 };
        let value = inside(line.floor(time as i128) + slip as i128);
        Range { time, low: value, high: value }
    };
    times.iter().map(range).collect()
}

fn touching(times: &[u32], random: &mut Random) -> Vec<Range> {
    let line = some_line(times, random);
    let range = |&time: &u32| {
        let value = line.floor(time as i128);
        let width = random.pick(&[0, 1, 2, 5, 1_000_000]);
        let (below, above) = if random.one_in(2) { (width, 0) } else { (0, width) };
        Range { time, low: inside(value - below), high: inside(value + above) }
    };
    times.iter().map(range).collect()
}

fn extreme(times: &[u32], random: &mut Random) -> Vec<Range> {
    let values = [LEAST_VALUE, LEAST_VALUE, LEAST_VALUE + 1, -1, 0, 1, LARGEST_VALUE - 1];
    let full = random.one_in(3);
    let range = |&time: &u32| {
        let whole = full && !random.one_in(4);
        let one = if whole { LEAST_VALUE } else { random.pick(&values) };
        let other = if whole || random.one_in(3) { LARGEST_VALUE } else { random.pick(&values) };
        Range { time, low: one.min(other), high: one.max(other) }
    };
    times.iter().map(range).collect()
}

fn anywhere(times: &[u32], random: &mut Random) -> Vec<Range> {
    let narrow = random.one_in(2);
    let range = |&time: &u32| {
        let one = any_value(random);
        let other = if narrow { one + random.between(0, 1000) as i128 } else { any_value(random) };
        Range { time, low: inside(one.min(other)), high: inside(one.max(other)) }
    };
    times.iter().map(range).collect()
}

/// Highs on a hull that opens upwards, lows on one that opens downwards.
fn bowl(times: &[u32], random: &mut Random) -> Vec<Range> {
    let (steep, waist) = (random.between(1, 3_000_000), random.between(0, 100));
    let middle = random.below(times.len()) as i64;
    let range = |(place, &time): (usize, &u32)| {
        let away = place as i64 - middle;
        let height = (steep * away * away + waist) as i128;
        Range { time, low: inside(-height), high: inside(height) }
    };
    times.iter().enumerate().map(range).collect()
}

/// A line through values at the first and at the last time: small ones, large ones, or a whole slope.
fn some_line(times: &[u32], random: &mut Random) -> Line {
    let (first, last) = (times[0], times[times.len() - 1]);
    let span = (last - first).max(1) as i64;
    let value = random.between(-9, 9);
    let then = match random.below(4) {
        0 => any_value(random) as i64,
        1 => random.between(-9, 9),
        _ => value + span * random.between(-2, 2),
    };
    let value = if random.one_in(8) { any_value(random) as i64 } else { value };
    let p = (then - value) as i128;
    let d = span as i128;
    Line { p, q: value as i128 * d - p * first as i128, d }
}

fn any_value(random: &mut Random) -> i128 {
    random.between(LEAST_VALUE as i64, LARGEST_VALUE as i64) as i128
}

/// The nearest value inside the span.
pub fn inside(value: i128) -> i32 {
    value.clamp(LEAST_VALUE as i128, LARGEST_VALUE as i128) as i32
}
