//! The worked cases of the scope on previews: what is expected here is held to the scope before the library is held to
//! it.

use super::samples::{BEAM, SAMPLE, agree, ranges};
use crate::answers::{self, Effect, borrowed};
use crate::desk::Desk;
use crate::difference::Outcome;
use crate::line::Line;
use crate::outlook::Outlook;
use crate::segments::BY_TRYING;
use crate::trace::{Lists, Range, Service};

type Numbers = (u32, i32, i32);

pub fn compare(desk: &mut Desk) -> Outcome {
    let sample = Lists::of(&ranges(&SAMPLE));
    let at_20 = Service::rising(20);
    let joined = joins(line(1, 70, 10), line(3, -30, 10), Some(77), Some(130));
    preview(desk, (at_20, &sample), (60, 13, 16), Ok(joined))?;
    preview(desk, (at_20, &sample), (60, 16, 18), Ok(BEGINS))?;
    preview(desk, (at_20, &Lists::default()), (0, 0, 4), Ok(BEGINS))?;
    let half = line(1, 0, 2);
    preview(desk, (Service::rising(9), &one(0, 0)), (4, 2, 2), Ok(joins(half, half, Some(18), Some(18))))?;
    preview(desk, (at_20, &sample), (50, 13, 16), Err(6))?;
    preview(desk, (at_20, &one(1, 0)), (0, 0, 4), Err(5))?;
    preview(desk, (OUTSIDE, &one(1, 0)), (0, 0, 4), Err(4))?;
    preview(desk, (at_20, &still(4095)), (0, 1, 0), Err(6))?;
    preview(desk, (OUTSIDE, &still(4096)), (0, 1, 0), Err(7))?;
    preview(desk, (at_20, &still(4096)), (1, 0, 4), Err(7))?;
    preview(desk, (at_20, &still(5000)), (0, 1, 0), Err(7))?;
    let mut unequal = still(4096);
    unequal.lows.pop();
    preview(desk, (at_20, &unequal), (0, 1, 0), Err(10))?;
    falling(desk)?;
    stepped(desk)
}

/// The cases with a direction.
fn falling(desk: &mut Desk) -> Outcome {
    let beam = Lists::of(&ranges(&BEAM));
    let joined = joins(line(-3, 430, 10), line(-1, 330, 10), Some(77), Some(130));
    preview(desk, (Service::falling(20), &beam), (60, 24, 27), Ok(joined))?;
    preview(desk, (Service::falling(20), &beam), (60, 22, 24), Ok(BEGINS))?;
    let no_direction = Service::rising(20).toward(2);
    preview(desk, (no_direction, &one(1, 0)), (0, 0, 4), Err(4))?;
    preview(desk, (no_direction, &still(4096)), (0, 1, 0), Err(7))
}

/// The cases with a step.
fn stepped(desk: &mut Desk) -> Outcome {
    let (sample, at_20) = (Lists::of(&ranges(&SAMPLE)), Service::rising(20));
    let joined = joins(line(1, 70, 10), line(3, -30, 10), Some(120), Some(180));
    preview(desk, (at_20.every(60), &sample), (60, 13, 16), Ok(joined))?;
    preview(desk, (at_20.every(60), &sample), (60, 16, 18), Ok(BEGINS))?;
    preview(desk, (at_20.every(0), &one(1, 0)), (0, 0, 4), Err(4))?;
    preview(desk, (at_20.every(0), &still(4096)), (0, 1, 0), Err(7))
}

/// The least number that is no level.
pub const OUTSIDE: Service = Service::rising(268_435_457);

const BEGINS: Effect = Effect { begins: true, outlook: Outlook::Open };

fn joins(slow: Line, fast: Line, some: Option<u32>, all: Option<u32>) -> Effect {
    Effect { begins: false, outlook: Outlook::Lines { slow, fast, some, all } }
}

pub fn line(p: i128, q: i128, d: i128) -> Line {
    Line { p, q, d }
}

/// A range at time 0.
pub fn one(low: i32, high: i32) -> Lists {
    Lists { times: vec![0], lows: vec![low], highs: vec![high] }
}

/// So many ranges, all at time 0 and from 0 to 4.
pub fn still(count: usize) -> Lists {
    Lists { times: vec![0; count], lows: vec![0; count], highs: vec![4; count] }
}

fn preview(
    desk: &mut Desk,
    (service, lists): (Service, &Lists),
    (time, low, high): Numbers,
    scope: Result<Effect, u8>,
) -> Outcome {
    let range = Range { time, low, high };
    let expected = answers::preview(service, lists, &range, BY_TRYING);
    agree(format!("{scope:?}"), format!("{expected:?}"), lists)?;
    desk.tally.add("worked cases of the scope", 1);
    desk.preview((service, lists, &range), borrowed(&expected))
}
