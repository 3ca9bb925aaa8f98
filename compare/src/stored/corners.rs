//! The output of `corner_tests`: for each call a line with its corners, the first ones and the last, and a digest of
//! all.

use super::digest::digest;
use super::shapes::{LATE_FIRST, Shape, Shaped, WIDE, WIDE_FIRST, WIDE_RAGGED};
use super::trials::Trial;
use super::{FITTER, shown};
use crate::answers;
use crate::calls::lines::PLACES;
use crate::line::Line;
use crate::trace::MOST_RANGES;

/// As many corners are written from the start on, and the last one.
const SHOWN: usize = 12;

/// A trace by formula: its name, shape, first time, gap, number of ranges and k.
type Long = (&'static str, Shape, u64, u64, usize, usize);

const ALL: usize = MOST_RANGES;

const LONG: [Long; 23] = [
    ("bowl", Shape::Bowl, 0, 1, ALL, ALL),
    ("bowl, wide gaps", Shape::Bowl, WIDE_FIRST, WIDE, ALL, ALL),
    ("bowl, the last times", Shape::Bowl, LATE_FIRST, 1, ALL, ALL),
    ("bowl, first half", Shape::Bowl, 0, 1, ALL, 2048),
    ("bowl, one range", Shape::Bowl, 0, 1, ALL, 1),
    ("bowl, k too large", Shape::Bowl, 0, 1, ALL, ALL + 1),
    ("bowl, 4097 ranges", Shape::Bowl, 0, 1, ALL + 1, ALL),
    ("waist", Shape::Waist, 0, 1, ALL, ALL),
    ("waist, wide gaps", Shape::Waist, WIDE_FIRST, WIDE, ALL, ALL),
    ("waist, first half", Shape::Waist, 0, 1, ALL, 2048),
    ("full, wide gaps", Shape::Full, WIDE_FIRST, WIDE, ALL, ALL),
    ("full, the last times", Shape::Full, LATE_FIRST, 1, ALL, ALL),
    ("parabola", Shape::Parabola, 0, 1, ALL, ALL),
    ("parabola, first of a segment", Shape::Parabola, 0, 1, ALL, ALL - 1),
    ("zigzag, wide gaps", Shape::Zigzag, WIDE_FIRST, WIDE, ALL, ALL),
    ("drift", Shape::Drift, 0, 7, ALL, 20),
    ("drift", Shape::Drift, 0, 7, ALL, 1000),
    ("drift, every gap 1", Shape::Drift, 0, 1, ALL, ALL),
    ("drift, wide gaps", Shape::Drift, 0, WIDE_RAGGED, ALL, 2500),
    ("swings", Shape::Swings, 0, 100, ALL, 90),
    ("swings, every gap 1", Shape::Swings, 0, 1, ALL, 3999),
    ("swings, the last times", Shape::Swings, LATE_FIRST, 1, ALL, 4050),
    ("swings, wide gaps", Shape::Swings, 0, WIDE_RAGGED, ALL, 4080),
];

/// A trial has k and the place of the slice that is one too short, if any; without k, every k is tried, and one too low
/// and one too high.
pub fn trial(trial: &Trial) -> String {
    let ks = match trial.first_place() {
        Some(k) => k..=k,
        None => 0..=trial.lists.times.len() + 1,
    };
    let told = |k| told(k, &trial.unless_short(PLACES, answers::corners(k, &trial.lists, FITTER)));
    ks.map(told).collect()
}

pub fn long() -> String {
    let told = |(name, shape, first, gap, count, k)| {
        let lists = Shaped { shape, first, gap }.lists(count, count);
        format!("# {name}\n{}", told(k, &answers::corners(k, &lists, FITTER)))
    };
    LONG.map(told).concat()
}

fn told(k: usize, answer: &Result<Vec<Line>, u8>) -> String {
    let answer = match answer {
        Err(number) => format!(" refused {number}"),
        Ok(corners) if corners.is_empty() => " open".to_string(),
        Ok(corners) => listed(corners),
    };
    format!("after {k}:{answer}, rest kept\n")
}

fn listed(corners: &[Line]) -> String {
    let lines = shown(corners, SHOWN).map(|(_, line)| format!(" ({}, {}, {})", line.p, line.q, line.d));
    let digest = digest(corners.iter().flat_map(|line| [line.p, line.q, line.d]));
    format!("{} corners {}, digest {digest}", lines.collect::<String>(), corners.len())
}
