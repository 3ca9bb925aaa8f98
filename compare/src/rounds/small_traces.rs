//! Random small traces: every call, with Corners for every k and for some that are too large, Preview for every range,
//! and Latest as the trace is cut from its end; and in the mirror.

use crate::answers;
use crate::desk::Desk;
use crate::difference::Outcome;
use crate::file;
use crate::line::Line;
use crate::meaning::{self, has_reached};
use crate::outlook::Outlook;
use crate::report;
use crate::room::Room;
use crate::rounds::{latest, mirrors, previews};
use crate::segments::{BY_TRYING, Segment, Stage, segments, stages};
use crate::tally::Tally;
use crate::trace::{FALLING, LAST_TIME, Lists, Range, Service, Trace};
use crate::traces::addresses::address;
use crate::traces::services::service;
use crate::traces::small::{kinds, small_ranges};

pub fn compare(desk: &mut Desk, traces: usize) -> Outcome {
    desk.tally.add("small traces", 0);
    for kind in kinds() {
        desk.tally.add(kind, 0);
    }
    previews::count_none(desk);
    latest::count_none(desk);
    for _ in 0..traces {
        let (ranges, kind) = small_ranges(&mut desk.random);
        let stages: Vec<Stage> = stages(&ranges, BY_TRYING).collect();
        let service = service(&ranges, &stages, &mut desk.random);
        let trace = Trace { address: address(&mut desk.random), service, ranges };
        let segments = segments(&trace.ranges, service, BY_TRYING);
        meaning::check(&trace, &stages, &segments)?;
        meaning::check_fitters(&trace.ranges)?;
        mirrors::check(&trace, &segments)?;
        desk.tally.add("small traces", 1);
        desk.tally.add(kind, 1);
        count_fits(&mut desk.tally, &trace.ranges, &stages);
        count_times(&mut desk.tally, &stages, &segments, service);
        calls(desk, &trace, &segments)?;
        every_prefix(desk, &trace, &stages)?;
        previews::compare(desk, &trace, &segments)?;
        latest::compare(desk, &trace, &segments)?;
    }
    Ok(())
}

fn calls(desk: &mut Desk, trace: &Trace, segments: &[Segment]) -> Outcome {
    let lists = Lists::of(&trace.ranges);
    let file = file::bytes(trace);
    let text = report::accepted(trace, segments);
    desk.write((trace.address, trace.service, &lists), Ok(&file), &Room::enough())?;
    desk.read(&file, Ok(trace), &Room::enough())?;
    desk.segment(trace.service, &lists, Ok(segments), &Room::enough())?;
    mirrors::segment(desk, trace.service, &lists, Ok(segments))?;
    desk.report(&file, &text, &Room::enough())
}

fn every_prefix(desk: &mut Desk, trace: &Trace, stages: &[Stage]) -> Outcome {
    let lists = Lists::of(&trace.ranges);
    for stage in stages {
        desk.corners(stage.end, &lists, Ok(&stage.corners), &Room::enough())?;
        mirrors::corners(desk, stage.end, &lists, Ok(&stage.corners))?;
    }
    let count = stages.len();
    let huge = [4096, 1 << 32, (1 << 32) + count, 1 << 63, usize::MAX];
    for k in [0, count + 1, desk.random.pick(&huge)] {
        let refused = answers::prefix(k, &lists).map(|_| [].as_slice());
        desk.corners(k, &lists, refused, &Room::enough())?;
    }
    Ok(())
}

fn count_fits(tally: &mut Tally, ranges: &[Range], stages: &[Stage]) {
    let with = |count: usize| stages.iter().filter(|stage| stage.corners.len() == count).count();
    let touches = |(stage, range): (&Stage, &Range)| touches(&stage.corners, range);
    tally.add("fits", stages.len());
    tally.add("fits: open", with(0));
    tally.add("fits: a point", with(1));
    tally.add("fits: a segment", with(2));
    tally.add("corners", stages.iter().map(|stage| stage.corners.len()).sum());
    let next = ranges.iter().skip(1);
    let touched = stages.iter().zip(next).filter(|pair| touches(*pair)).count();
    tally.add("corners just touched by the next range", touched);
}

/// Whether an end of the range is on a corner.
fn touches(corners: &[Line], range: &Range) -> bool {
    let at = |line: &Line, end: i32| line.above(end as i128, range.time as i128) == 0;
    corners.iter().any(|line| at(line, range.low) || at(line, range.high))
}

fn count_times(tally: &mut Tally, stages: &[Stage], segments: &[Segment], service: Service) {
    tally.add("segments", segments.len());
    let direction = if service.direction == FALLING { "falling" } else { "rising" };
    let mut end = 0;
    for segment in segments {
        end += segment.count;
        if let Outlook::Lines { some, all, .. } = segment.outlook {
            count_time(tally, &format!("{direction}, some"), some, segment.last);
            count_time(tally, &format!("{direction}, all"), all, segment.last);
            let later = some.is_none() && reached_one_later(&stages[end - 1].corners, service);
            tally.add(&format!("{direction}, some: none, but reached one multiple later"), later as usize);
        }
    }
}

fn count_time(tally: &mut Tally, name: &str, time: Option<u32>, last: u32) {
    let at_last = time == Some(last);
    tally.add(&format!("{name}: the segment's last time"), at_last as usize);
    tally.add(&format!("{name}: later"), (time > Some(last)) as usize);
    let at_end = time == Some(LAST_TIME) && !at_last;
    tally.add(&format!("{name}: the last time of all, not before"), at_end as usize);
    tally.add(&format!("{name}: none"), time.is_none() as usize);
}

/// Whether some line has reached the level at the first multiple of the step after the last time of all.
fn reached_one_later(corners: &[Line], service: Service) -> bool {
    let step = service.step as i128;
    let later = (LAST_TIME as i128 / step + 1) * step;
    corners.iter().any(|line| has_reached(line, later, service))
}
