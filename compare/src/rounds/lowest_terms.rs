//! Lines through two points that take many steps of Euclid's rule: two of p, q and d are neighbours in the series 1, 2,
//! 3, 5, 8 and so on, which have no common divisor above 1, or a factor times such neighbours.

use crate::answers::{self, borrowed};
use crate::desk::Desk;
use crate::difference::Outcome;
use crate::line::Line;
use crate::room::Room;
use crate::segments::BY_TRYING;
use crate::trace::{FALLING, LARGEST_VALUE, LAST_TIME, LEAST_VALUE, Lists, RISING, Range, Service};

const FACTORS: [u32; 5] = [1, 2, 12, 65_535, 65_536];

/// The largest difference of two values.
const LARGEST_RISE: u32 = LARGEST_VALUE.abs_diff(LEAST_VALUE);

/// Here p and q are the largest neighbours that they can be: p is 433,494,437, and q, three times the first value,
/// −701,408,733.
const LARGEST_NEIGHBOURS: [Range; 2] = [point(0, -233_802_911), point(3, 199_691_526)];

const COUNTED: [&str; 2] = ["lines by Euclid's rule: p and d", "lines by Euclid's rule: p and q"];

pub fn compare(desk: &mut Desk) -> Outcome {
    let (mut less, mut more) = (1, 2);
    while less <= LARGEST_RISE {
        for factor in FACTORS {
            slopes_of(desk, less, more, factor)?;
            slopes_of(desk, more, less, factor)?;
        }
        intercepts_of(desk, less, more)?;
        (less, more) = (more, less + more);
    }
    line_through(desk, LARGEST_NEIGHBOURS, COUNTED[1])
}

/// The lines that rise and fall by one number in as many seconds as another says, both times a factor, from the first
/// times and to the last time, as far as there are such.
fn slopes_of(desk: &mut Desk, rise: u32, span: u32, factor: u32) -> Outcome {
    let (Some(all_rise), Some(all_span)) = (rise.checked_mul(factor), span.checked_mul(factor)) else {
        return Ok(());
    };
    if all_rise > LARGEST_RISE {
        return Ok(());
    }
    for start in [0, 1, LAST_TIME - all_span] {
        for sign in [1, -1] {
            let first = -sign * (all_rise / 2) as i32;
            let points = [point(start, first), point(start + all_span, first + sign * all_rise as i32)];
            let line = Line::through(points[0].time, points[0].low, points[1].time, points[1].low).in_lowest_terms();
            assert_eq!((line.p, line.d), (sign as i128 * rise as i128, span as i128), "no lowest terms");
            line_through(desk, points, COUNTED[0])?;
        }
    }
    Ok(())
}

/// The lines that begin at one number below 0, or above it, and in a second rise, or fall, by another: these are q and
/// p.
fn intercepts_of(desk: &mut Desk, start: u32, rise: u32) -> Outcome {
    let within = start <= LARGEST_VALUE as u32 && rise - start <= LARGEST_VALUE as u32;
    for sign in if within { &[1, -1][..] } else { &[] } {
        let points = [point(0, -sign * start as i32), point(1, sign * (rise - start) as i32)];
        line_through(desk, points, COUNTED[1])?;
    }
    Ok(())
}

/// Segment in both directions, and Corners.
fn line_through(desk: &mut Desk, points: [Range; 2], name: &str) -> Outcome {
    let lists = Lists::of(&points);
    for direction in [RISING, FALLING] {
        let service = Service::rising(20).toward(direction);
        let expected = answers::segment(service, &lists, BY_TRYING);
        desk.segment(service, &lists, borrowed(&expected), &Room::enough())?;
    }
    let expected = answers::corners(2, &lists, BY_TRYING);
    desk.corners(2, &lists, borrowed(&expected), &Room::enough())?;
    desk.tally.add(name, 1);
    Ok(())
}

const fn point(time: u32, value: i32) -> Range {
    Range { time, low: value, high: value }
}
