//! What is expected of a small trace, held to the words of the demands and of the scope once more: corners fit and
//! are between no two others, no time before the two times will do, and no split does better than the segments.

use crate::difference::{Difference, Outcome};
use crate::file;
use crate::line::{Line, turn};
use crate::outlook::Outlook;
use crate::segments::{BY_CLIPPING, BY_TRYING, Segment, Stage, stages};
use crate::splits::{closed_by_three, no_split_is_better};
use crate::trace::{FALLING, LAST_TIME, Lists, Range, Service, Trace};
use std::iter::successors;

/// How many multiples of the step from a segment's last time on are tried one by one.
const TRIED: usize = 60;

/// The stages are those of the trace by trying all lines, and the segments come from them.
pub fn check(trace: &Trace, stages: &[Stage], segments: &[Segment]) -> Outcome {
    match fault(&trace.ranges, trace.service, stages, segments) {
        None => Ok(()),
        Some(fault) => Err(difference(trace, format!("{fault}\n{stages:?}\n{segments:?}"))),
    }
}

/// The two ways of finding corners agree after every range.
pub fn check_fitters(ranges: &[Range]) -> Outcome {
    let by_trying = stages(ranges, BY_TRYING);
    let by_clipping = stages(ranges, BY_CLIPPING);
    match by_trying.zip(by_clipping).find(|(tried, clipped)| tried != clipped) {
        None => Ok(()),
        Some((tried, clipped)) => {
            let trace = Trace { address: 1, service: Service::rising(0), ranges: ranges.to_vec() };
            Err(difference(&trace, format!("by trying {tried:?}\nby clipping {clipped:?}")))
        }
    }
}

fn difference(trace: &Trace, given: String) -> Box<Difference> {
    Box::new(Difference {
        call: format!("the brute force itself, {}", trace.service.in_words()),
        ranges: Lists::of(&trace.ranges).in_words(),
        expected: "agreement with the words of the scope".to_string(),
        given,
        file: file::bytes(trace),
    })
}

/// Nothing, or what is wrong.
fn fault(ranges: &[Range], service: Service, stages: &[Stage], segments: &[Segment]) -> Option<&'static str> {
    for stage in stages {
        if !corners_are_sound(&ranges[stage.begin..stage.end], &stage.corners) {
            return Some("a corner does not fit, or is between two others");
        }
    }
    let mut ends = Vec::new();
    for segment in segments {
        let begin = ends.last().copied().unwrap_or(0);
        let end = begin + segment.count;
        if !times_are_least(segment, &stages[end - 1].corners, service) {
            return Some("one of the two times is not the least");
        }
        if end < ranges.len() && !closed_by_three(&ranges[begin..end], &ranges[end]) {
            return Some("a segment is closed without two ranges that leave no line");
        }
        ends.push(end);
    }
    if !no_split_is_better(ranges, &ends) {
        return Some("the segments are no split, or a split does better");
    }
    None
}

/// Each corner fits, and each three in a row turn to the right: none is a weighted mean of others.
fn corners_are_sound(run: &[Range], corners: &[Line]) -> bool {
    let fit = corners.iter().all(|line| run.iter().all(|range| line.fits(range)));
    let count = corners.len();
    let corner = |place: usize| &corners[place % count];
    let right = |place| turn(corner(place), corner(place + 1), corner(place + 2)) < 0;
    fit && (count < 3 || (0..count).all(right)) && (count == 0) == (run.len() == 1)
}

/// Both times are tried one multiple of the step after the other for a while, and wherever a corner crosses the level.
fn times_are_least(segment: &Segment, corners: &[Line], service: Service) -> bool {
    let Outlook::Lines { some, all, .. } = segment.outlook else {
        return segment.count == 1;
    };
    let some_has = |time: u32| corners.iter().any(|line| has_reached(line, time as i128, service));
    let all_have = |time: u32| corners.iter().all(|line| has_reached(line, time as i128, service));
    let mut tried: Vec<u32> = multiples_from(segment.last, service.step).take(TRIED).collect();
    let crossings = corners.iter().flat_map(|line| crossings(line, service));
    tried.extend(crossings.filter(|&time| time >= segment.last));
    tried.sort();
    let first = |holds: &dyn Fn(u32) -> bool| tried.iter().copied().find(|&time| holds(time));
    first(&some_has) == some && first(&all_have) == all
}

/// Whether a line is at or above the level at a time; at or below it, if the trace falls.
pub fn has_reached(line: &Line, time: i128, service: Service) -> bool {
    let above = line.above(service.level as i128, time);
    if service.direction == FALLING { above <= 0 } else { above >= 0 }
}

/// The multiples of a step from a time on, as long as there are times.
fn multiples_from(from: u32, step: u32) -> impl Iterator<Item = u32> {
    let is_multiple = move |time: &u32| time % step == 0;
    let first = (from..=LAST_TIME).take(step as usize).find(is_multiple);
    successors(first, move |time| time.checked_add(step))
}

/// The multiples of the step next to the time at which a line is at the level, on both sides.
fn crossings(line: &Line, service: Service) -> Vec<u32> {
    if line.p == 0 {
        return Vec::new();
    }
    let step = service.step as i128;
    let turn = (line.d * service.level as i128 - line.q) / line.p / step;
    (turn - 1..=turn + 1).filter_map(|turn| u32::try_from(turn * step).ok()).collect()
}
