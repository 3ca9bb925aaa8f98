//! Latest on a trace and in the mirror, and on what is left of the trace as the latest run is dropped, over and over:
//! that takes as many calls as there are segments.

use crate::desk::Desk;
use crate::difference::{Difference, Outcome};
use crate::mirror;
use crate::room::Room;
use crate::rounds::mirrors;
use crate::segments::Segment;
use crate::trace::{Lists, Range, Trace};
use crate::traces::services::service;
use crate::trends::{BY_CLIPPING, BY_TRYING, Run, cut_from_the_end};
use std::slice;

/// What is counted of the whole small traces.
const LAST: &str = "latest trends: the last segment";
const LONGER: &str = "latest trends: begun before the last segment";
const ELSEWHERE: &str = "small traces: cut elsewhere from their end";

/// Counts from 0, so that one that stays there is named.
pub fn count_none(desk: &mut Desk) {
    for name in [LAST, LONGER, ELSEWHERE] {
        desk.tally.add(name, 0);
    }
}

/// Every call on a small trace that has these segments.
pub fn compare(desk: &mut Desk, trace: &Trace, segments: &[Segment]) -> Outcome {
    let runs = cut_from_the_end(&trace.ranges, BY_TRYING);
    check_finders(&trace.ranges, &runs)?;
    if let Some((run, last)) = runs.first().zip(segments.last()) {
        desk.tally.add(if run.ranges == last.count { LAST } else { LONGER }, 1);
    }
    let from_the_end = runs.iter().rev().map(|run| run.ranges);
    desk.tally.add(ELSEWHERE, from_the_end.ne(segments.iter().map(|segment| segment.count)) as usize);
    whole(desk, trace, &runs)?;
    cut(desk, &trace.ranges, &runs, segments.len())
}

/// The latest run of all is the first from the end; a trace without ranges has one of none.
pub fn whole(desk: &mut Desk, trace: &Trace, runs: &[Run]) -> Outcome {
    let Trace { service, ranges, .. } = trace;
    let lists = Lists::of(ranges);
    let trend = runs.first().unwrap_or(&Run::default()).trend(ranges, *service);
    desk.latest((*service, &lists), Ok(&trend), &Room::enough())?;
    mirrors::latest(desk, *service, &lists, Ok(&trend))
}

/// Goes on by what the library tells, so that the number of calls is its own; the level is new in each.
pub fn cut(desk: &mut Desk, ranges: &[Range], runs: &[Run], segments: usize) -> Outcome {
    let mut left = ranges;
    let mut calls = 0;
    while !left.is_empty() {
        let service = service(left, slice::from_ref(&runs[calls].stage(left)), &mut desk.random);
        let told = desk.told_latest(service, left, &runs[calls].trend(left, service))?;
        left = &left[..left.len() - told];
        calls += 1;
    }
    desk.tally.add("runs cut from the end of a trace", calls);
    if calls == segments {
        return Ok(());
    }
    Err(difference("Latest, over and over", ranges, format!("{segments} calls, one for each segment"), calls))
}

/// The two ways of finding runs agree, and the second finds the images in the mirror.
pub fn check_finders(ranges: &[Range], tried: &[Run]) -> Outcome {
    let clipped = cut_from_the_end(ranges, BY_CLIPPING);
    let images = cut_from_the_end(&mirror::ranges(ranges), BY_CLIPPING);
    if clipped == tried && images == mirror::runs(tried) {
        return Ok(());
    }
    let given = format!("{clipped:?}\nmirrored {images:?}");
    Err(difference("the brute force itself, from the end", ranges, format!("{tried:?}"), given))
}

fn difference(call: &str, ranges: &[Range], expected: String, given: impl ToString) -> Box<Difference> {
    let (call, ranges, given) = (call.to_string(), Lists::of(ranges).in_words(), given.to_string());
    Box::new(Difference { call, ranges, expected, given, file: Vec::new() })
}
