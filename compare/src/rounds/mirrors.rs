//! Each call also in the mirror: what it gives there is the image of what it gives here, and a refusal has the same
//! number.

use crate::answers::{Effect, borrowed};
use crate::desk::Desk;
use crate::difference::{Difference, Outcome};
use crate::line::Line;
use crate::mirror;
use crate::room::Room;
use crate::segments::{BY_TRYING, Segment, segments};
use crate::trace::{Lists, Range, Service, Trace};
use crate::trends::Trend;

pub fn segment(desk: &mut Desk, service: Service, lists: &Lists, expected: Result<&[Segment], u8>) -> Outcome {
    let image = expected.map(mirror::segments);
    desk.tally.add("mirrored: Segment", 1);
    desk.segment(mirror::service(service), &mirror::lists(lists), borrowed(&image), &Room::enough())
}

pub fn corners(desk: &mut Desk, k: usize, lists: &Lists, expected: Result<&[Line], u8>) -> Outcome {
    let image = expected.map(mirror::corners);
    desk.tally.add("mirrored: Corners", 1);
    desk.corners(k, &mirror::lists(lists), borrowed(&image), &Room::enough())
}

pub fn preview(desk: &mut Desk, handed: (Service, &Lists, &Range), expected: Result<&Effect, u8>) -> Outcome {
    let (service, lists, range) = handed;
    let image = expected.map(mirror::effect);
    desk.tally.add("mirrored: Preview", 1);
    desk.preview((mirror::service(service), &mirror::lists(lists), &mirror::range(range)), borrowed(&image))
}

pub fn latest(desk: &mut Desk, service: Service, lists: &Lists, expected: Result<&Trend, u8>) -> Outcome {
    let image = expected.map(mirror::trend);
    desk.tally.add("mirrored: Latest", 1);
    desk.latest((mirror::service(service), &mirror::lists(lists)), borrowed(&image), &Room::enough())
}

/// What is expected of a trace and of its image, each found by itself, are images of each other.
pub fn check(trace: &Trace, expected: &[Segment]) -> Outcome {
    let (service, ranges) = (mirror::service(trace.service), mirror::ranges(&trace.ranges));
    let found = segments(&ranges, service, BY_TRYING);
    if found == mirror::segments(expected) {
        return Ok(());
    }
    Err(Box::new(Difference {
        call: format!("the brute force itself, {}, mirrored", trace.service.in_words()),
        ranges: Lists::of(&trace.ranges).in_words(),
        expected: format!("the image of {expected:?}"),
        given: format!("{found:?}"),
        file: Vec::new(),
    }))
}
