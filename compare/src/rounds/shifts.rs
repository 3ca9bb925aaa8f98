//! The two times at the multiples of a step, by every call that tells them, on traces that end next to a multiple, near
//! time 0 and near the last time of all; each is found once more by trying one second after the other.

use crate::answers::{self, borrowed};
use crate::desk::Desk;
use crate::difference::Outcome;
use crate::file;
use crate::line::Line;
use crate::meaning::{self, has_reached};
use crate::outlook::{Outlook, outlook};
use crate::random::Random;
use crate::room::Room;
use crate::rounds::mirrors;
use crate::rounds::samples::agree;
use crate::segments::{BY_TRYING, Segment, Stage, segments, stages};
use crate::tally::Tally;
use crate::trace::{EVERY_SECOND, FALLING, LAST_TIME, Lists, RISING, Range, Service, Trace};
use crate::traces::levels::level;
use crate::traces::services::STEPS;
use crate::trends;

/// How many traces are tried for each step, direction and last time.
const TRACES: usize = 40;

/// For so many steps after a segment's last time every second is tried: to the end, where that is near.
const SCANNED: u32 = 3;

/// A time in words, by how it comes from the step.
const AT_ONCE: &str = "the segment's last time";
const SAME: &str = "a later multiple, as at every second";
const MOVED: &str = "moved on to a multiple";
const LAST: &str = "the last multiple of all";
const NEVER: &str = "none at any second";
const NONE_LEFT: &str = "none, as no multiple is left";
const BACK: &str = "none, as it falls back before a multiple";
const KINDS: [&str; 7] = [AT_ONCE, SAME, MOVED, LAST, NEVER, NONE_LEFT, BACK];

pub fn compare(desk: &mut Desk) -> Outcome {
    for direction in [RISING, FALLING] {
        for time in ["some", "all"] {
            KINDS.iter().for_each(|kind| desk.tally.add(&count_name(direction, time, kind), 0));
        }
    }
    for step in STEPS {
        for direction in [RISING, FALLING] {
            for last in last_times(step) {
                for _ in 0..TRACES {
                    let trace = trace_up_to(last, Service::rising(0).toward(direction).every(step), &mut desk.random);
                    one(desk, &trace)?;
                }
            }
        }
    }
    Ok(())
}

fn count_name(direction: u32, time: &str, kind: &str) -> String {
    let direction = if direction == FALLING { "falling" } else { "rising" };
    format!("shifts, {direction}, {time}: {kind}")
}

/// Times next to the first multiples and to the last ones, and the last times of all.
fn last_times(step: u32) -> Vec<u32> {
    let last_multiple = LAST_TIME - LAST_TIME % step;
    let multiples = [0, step, 2 * step, last_multiple - step, last_multiple];
    let near = multiples.into_iter().flat_map(|multiple| [-1, 0, 1].map(|off| multiple as i64 + off));
    let times = near.filter_map(|time| u32::try_from(time).ok()).chain([LAST_TIME - 1, LAST_TIME]);
    times.filter(|time| *time > 0).collect()
}

/// Two ranges or more, of which the last has this time, and a level where something happens.
fn trace_up_to(last: u32, service: Service, random: &mut Random) -> Trace {
    let (mut ranges, count, width) = (Vec::new(), 2 + random.below(3), random.pick(&[0, 0, 1, 4]));
    let (mut time, mut value) = (Some(last), random.between(-9, 9) as i32);
    while let Some(at) = time.filter(|_| ranges.len() < count) {
        ranges.push(Range { time: at, low: value, high: value + random.between(0, width) as i32 });
        time = at.checked_sub(random.pick(&[1, 1, 2, 7, 1000]).min(at.max(1)));
        value += random.between(-9, 9) as i32;
    }
    ranges.reverse();
    let stages: Vec<Stage> = stages(&ranges, BY_TRYING).collect();
    let level = level(&ranges, &stages, service.step, random);
    Trace { address: 1, service: Service { level, ..service }, ranges }
}

fn one(desk: &mut Desk, trace: &Trace) -> Outcome {
    let stages: Vec<Stage> = stages(&trace.ranges, BY_TRYING).collect();
    let segments = segments(&trace.ranges, trace.service, BY_TRYING);
    meaning::check(trace, &stages, &segments)?;
    mirrors::check(trace, &segments)?;
    if let (Some(stage), Some(segment)) = (stages.last(), segments.last()) {
        count(&mut desk.tally, &stage.corners, segment, trace.service);
        scan(&stage.corners, segment, trace)?;
    }
    desk.tally.add(&format!("shifts: traces with a step of {}", trace.service.step), 1);
    calls(desk, trace, &segments)
}

fn calls(desk: &mut Desk, trace: &Trace, segments: &[Segment]) -> Outcome {
    let (service, lists) = (trace.service, Lists::of(&trace.ranges));
    desk.segment(service, &lists, Ok(segments), &Room::enough())?;
    mirrors::segment(desk, service, &lists, Ok(segments))?;
    let expected = answers::latest(service, &lists, trends::BY_TRYING);
    desk.latest((service, &lists), borrowed(&expected), &Room::enough())?;
    mirrors::latest(desk, service, &lists, borrowed(&expected))?;
    if let Some((last, before)) = trace.ranges.split_last() {
        let lists = Lists::of(before);
        let expected = answers::preview(service, &lists, last, BY_TRYING);
        desk.preview((service, &lists, last), borrowed(&expected))?;
        mirrors::preview(desk, (service, &lists, last), borrowed(&expected))?;
    }
    desk.file(&file::bytes(trace), BY_TRYING)
}

/// The times of a segment's outlook, none of them where it is open.
fn times_of(outlook: &Outlook) -> [Option<u32>; 2] {
    match *outlook {
        Outlook::Open => [None; 2],
        Outlook::Lines { some, all, .. } => [some, all],
    }
}

/// Counts both times of a segment that is not open, by what they are with a step of 1.
fn count(tally: &mut Tally, corners: &[Line], segment: &Segment, service: Service) {
    let by_second = outlook(corners, segment.last, service.every(EVERY_SECOND));
    if by_second == Outlook::Open {
        return;
    }
    let times = times_of(&segment.outlook).into_iter().zip(times_of(&by_second));
    for (name, (time, by_second)) in ["some", "all"].into_iter().zip(times) {
        let kind = kind((time, by_second), segment.last, service.step);
        tally.add(&count_name(service.direction, name, kind), 1);
    }
}

fn kind((time, by_second): (Option<u32>, Option<u32>), last: u32, step: u32) -> &'static str {
    let last_multiple = LAST_TIME - LAST_TIME % step;
    match (time, by_second) {
        (Some(time), _) if time == last => AT_ONCE,
        (Some(time), _) if time == last_multiple => LAST,
        (Some(_), _) if time == by_second => SAME,
        (Some(_), _) => MOVED,
        (None, None) => NEVER,
        (None, Some(second)) if second > last_multiple => NONE_LEFT,
        (None, Some(_)) => BACK,
    }
}

/// Tries second after second for a while: the times found are those of the segment, or these come later.
fn scan(corners: &[Line], segment: &Segment, trace: &Trace) -> Outcome {
    let service = trace.service;
    let end = segment.last.saturating_add(SCANNED * service.step);
    let reached = |line: &Line, time: u32| has_reached(line, time as i128, service);
    let first = |holds: &dyn Fn(u32) -> bool| {
        (segment.last..=end).find(|time| time % service.step == 0 && !corners.is_empty() && holds(*time))
    };
    let some = first(&|time| corners.iter().any(|line| reached(line, time)));
    let all = first(&|time| corners.iter().all(|line| reached(line, time)));
    let near = times_of(&segment.outlook).map(|time| time.filter(|time| *time <= end));
    agree(format!("{:?}", [some, all]), format!("{near:?}"), &Lists::of(&trace.ranges))
}
