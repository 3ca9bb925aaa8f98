//! The output of `segment_tests`: for each trace its segments, the first ones and the last as the report has them, and
//! a digest of the columns.

use super::digest::digest;
use super::shapes::{LATE_FIRST, Shape, Shaped, WIDE, WIDE_FIRST, WIDE_RAGGED};
use super::trials::Trial;
use super::{FITTER, shown};
use crate::answers;
use crate::calls::columns::PLACES;
use crate::calls::segment::row;
use crate::report::segment_line;
use crate::segments::Segment;
use crate::trace::{MOST_RANGES, Service};

/// As many segments are written from the start on, and the last one.
const SHOWN: usize = 6;

/// A trace by formula: its name, shape, first time, gap, level, number of ranges and number of highs.
type Long = (&'static str, Shape, u64, u64, i32, usize, usize);

const ALL: usize = MOST_RANGES;

const LONG: [Long; 28] = [
    ("bowl", Shape::Bowl, 0, 1, 268_435_456, ALL, ALL),
    ("bowl, wide gaps", Shape::Bowl, WIDE_FIRST, WIDE, 5_000_002, ALL, ALL),
    ("bowl, the last times", Shape::Bowl, LATE_FIRST, 1, 5_004_095, ALL, ALL),
    ("waist", Shape::Waist, 0, 1, 268_435_456, ALL, ALL),
    ("waist, wide gaps", Shape::Waist, WIDE_FIRST, WIDE, 3, ALL, ALL),
    ("waist, the last times", Shape::Waist, LATE_FIRST, 1, 4095, ALL, ALL),
    ("waist, first half", Shape::Waist, 0, 1, 2, 2048, 2048),
    ("full", Shape::Full, 0, 1, 0, ALL, ALL),
    ("full, wide gaps", Shape::Full, WIDE_FIRST, WIDE, 268_435_456, ALL, ALL),
    ("full, the last times", Shape::Full, LATE_FIRST, 1, -268_435_456, ALL, ALL),
    ("parabola", Shape::Parabola, 0, 1, 20_000_000, ALL, ALL),
    ("parabola, wide gaps", Shape::Parabola, WIDE_FIRST, WIDE, 16_769_025, ALL, ALL),
    ("parabola, the last times", Shape::Parabola, LATE_FIRST, 1, 9_000_000, ALL, ALL),
    ("parabola, the last segment open", Shape::Parabola, 7, 3, 268_435_456, ALL - 1, ALL - 1),
    ("zigzag", Shape::Zigzag, 0, 1, -268_435_456, ALL, ALL),
    ("zigzag, wide gaps", Shape::Zigzag, WIDE_FIRST, WIDE, 0, ALL, ALL),
    ("zigzag, the last times", Shape::Zigzag, LATE_FIRST, 1, 268_435_456, ALL, ALL),
    ("drift", Shape::Drift, 0, 7, 20, ALL, ALL),
    ("drift, every gap 1", Shape::Drift, 0, 1, 0, ALL, ALL),
    ("drift, the last times", Shape::Drift, LATE_FIRST, 1, -20, ALL, ALL),
    ("drift, wide gaps", Shape::Drift, 0, WIDE_RAGGED, 56, ALL, ALL),
    ("swings", Shape::Swings, 0, 100, 268_435_456, ALL, ALL),
    ("swings, every gap 1", Shape::Swings, 0, 1, 0, ALL, ALL),
    ("swings, the last times", Shape::Swings, LATE_FIRST, 1, 240_000_000, ALL, ALL),
    ("swings, wide gaps", Shape::Swings, 0, WIDE_RAGGED, 200_000_000, ALL, ALL),
    ("4097 ranges", Shape::Bowl, 0, 1, 0, ALL + 1, ALL + 1),
    ("4097 ranges and a level above", Shape::Bowl, 0, 1, 268_435_457, ALL + 1, ALL + 1),
    ("4097 ranges but for one high", Shape::Bowl, 0, 1, 0, ALL + 1, ALL),
];

/// A trial has the level, then the place of the slice that is one too short, 11 for none, then the direction, then the
/// step; 11, 0 and 1 stand for those that are left out.
pub fn trial(trial: &Trial) -> String {
    let answer = answers::segment(trial.service(), &trial.lists, FITTER);
    told(&trial.unless_short(PLACES, answer))
}

pub fn long() -> String {
    let told = |(name, shape, first, gap, level, count, highs)| {
        let lists = Shaped { shape, first, gap }.lists(count, highs);
        format!("# {name}\n{}", told(&answers::segment(Service::rising(level), &lists, FITTER)))
    };
    LONG.map(told).concat()
}

fn told(answer: &Result<Vec<Segment>, u8>) -> String {
    let segments = match answer {
        Err(number) => return format!("refused {number}, rest kept\n"),
        Ok(segments) => segments,
    };
    let lines = shown(segments, SHOWN).map(|(place, segment)| segment_line(place + 1, segment));
    let digest = digest(segments.iter().flat_map(|segment| row(segment).numbers()));
    format!("{}segments {}, digest {digest}, rest kept\n", lines.collect::<String>(), segments.len())
}
