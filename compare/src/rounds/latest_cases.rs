//! The worked cases of the scope on latest trends: what is expected here is held to the scope before the library is
//! held to it.

use super::preview_cases::{OUTSIDE, line, one, still};
use super::samples::{BEAM, SAMPLE, agree, ranges};
use crate::answers::{self, borrowed};
use crate::desk::Desk;
use crate::difference::Outcome;
use crate::line::Line;
use crate::outlook::Outlook;
use crate::room::Room;
use crate::trace::{Lists, Service};
use crate::trends::{BY_TRYING, Trend};

pub fn compare(desk: &mut Desk) -> Outcome {
    let at_20 = Service::rising(20);
    let corners = [line(-1, 95, 5), line(1, 70, 10), line(-1, 230, 20)];
    let trend = bounded(3, corners[0], corners[1], (Some(130), None), &corners);
    latest(desk, at_20, &Lists::of(&ranges(&SAMPLE)), Ok(trend))?;
    let trend = bounded(3, corners[0], corners[1], (Some(180), None), &corners);
    latest(desk, at_20.every(60), &Lists::of(&ranges(&SAMPLE)), Ok(trend))?;
    let corners = [line(-1, 330, 10), line(1, 570, 20), line(1, 105, 5)];
    let trend = bounded(3, corners[0], corners[2], (Some(130), None), &corners);
    latest(desk, Service::falling(20), &Lists::of(&ranges(&BEAM)), Ok(trend))?;
    latest(desk, Service::rising(1), &points(2), Ok(only(3, line(1, 0, 1), Some(2))))?;
    latest(desk, at_20, &points(3), Ok(only(2, line(2, -1, 1), Some(11))))?;
    latest(desk, at_20, &Lists::default(), Ok(open(0)))?;
    latest(desk, at_20, &one(0, 4), Ok(open(1)))?;
    refused(desk)
}

fn refused(desk: &mut Desk) -> Outcome {
    let at_20 = Service::rising(20);
    let [no_direction, no_step] = [at_20.toward(2), at_20.every(86_401)];
    latest(desk, at_20, &one(1, 0), Err(5))?;
    latest(desk, no_direction, &one(1, 0), Err(4))?;
    latest(desk, no_step, &one(1, 0), Err(4))?;
    latest(desk, OUTSIDE, &one(1, 0), Err(4))?;
    latest(desk, at_20, &still(4096), Err(6))?;
    latest(desk, no_direction, &still(4097), Err(7))?;
    latest(desk, no_step, &still(4097), Err(7))?;
    let mut unequal = still(4097);
    unequal.lows.pop();
    latest(desk, at_20, &unequal, Err(10))
}

/// The points (0, 0), (1, 1) and a third one at 2.
fn points(third: i32) -> Lists {
    Lists::of(&ranges(&[(0, 0, 0), (1, 1, 1), (2, third, third)]))
}

fn bounded(
    ranges: usize,
    slow: Line,
    fast: Line,
    (some, all): (Option<u32>, Option<u32>),
    corners: &[Line],
) -> Trend {
    Trend { ranges, outlook: Outlook::Lines { slow, fast, some, all }, corners: corners.to_vec() }
}

/// A run that a single line fits, with one time for some and all.
fn only(ranges: usize, line: Line, time: Option<u32>) -> Trend {
    bounded(ranges, line, line, (time, time), &[line])
}

fn open(ranges: usize) -> Trend {
    Trend { ranges, outlook: Outlook::Open, corners: Vec::new() }
}

fn latest(desk: &mut Desk, service: Service, lists: &Lists, scope: Result<Trend, u8>) -> Outcome {
    let expected = answers::latest(service, lists, BY_TRYING);
    agree(format!("{scope:?}"), format!("{expected:?}"), lists)?;
    desk.tally.add("worked cases of the scope", 1);
    desk.latest((service, lists), borrowed(&expected), &Room::enough())
}
