//! Long traces against the clipped polygon: every call, with Corners for every k, and Preview for every range, or for
//! many, and Latest as the trace is cut from its end; and in the mirror.

use crate::answers::Effect;
use crate::desk::Desk;
use crate::difference::{Difference, Outcome};
use crate::file;
use crate::meaning;
use crate::report;
use crate::room::Room;
use crate::rounds::{latest, mirrors};
use crate::segments::{BY_CLIPPING, Segment, Stage, stages};
use crate::trace::{Lists, MOST_RANGES, Range, Trace};
use crate::traces::addresses::address;
use crate::traces::long::SHAPES;
use crate::traces::services::service;
use crate::trends::{self, Run, cut_from_the_end};
use std::slice;

/// Traces of so many ranges are tried by both fitters.
const TRIED: usize = 60;

/// Traces of no more ranges than this have Corners and Preview compared for every k.
const EVERY_K: usize = 300;

/// For longer ones, about so many k are compared.
const SOME_K: usize = 40;

/// How many levels, each in some direction, are tried on each trace.
const SERVICES: usize = 6;

pub fn compare(desk: &mut Desk) -> Outcome {
    for formula in SHAPES {
        for count in [TRIED, EVERY_K, 1500, MOST_RANGES - 1, MOST_RANGES] {
            desk.tally.add("long traces", 1);
            let ranges = formula(count, &mut desk.random);
            let runs = cut_from_the_end(&ranges, trends::BY_CLIPPING);
            if count == TRIED {
                meaning::check_fitters(&ranges)?;
                latest::check_finders(&ranges, &cut_from_the_end(&ranges, trends::BY_TRYING))?;
            }
            let last_stages = every_stage(desk, &ranges)?;
            latest::cut(desk, &ranges, &runs, last_stages.len())?;
            for _ in 0..SERVICES {
                for_some_service(desk, &ranges, &last_stages, &runs)?;
            }
        }
    }
    Ok(())
}

/// Compares Corners and Preview, and gives the last stage of each segment.
fn every_stage(desk: &mut Desk, ranges: &[Range]) -> Result<Vec<Stage>, Box<Difference>> {
    let lists = Lists::of(ranges);
    let count = ranges.len();
    let mut last_stages = Vec::new();
    for stage in stages(ranges, BY_CLIPPING) {
        let edge = stage.end < 4 || stage.end + 2 > count;
        if edge || count <= EVERY_K || desk.random.one_in(count / SOME_K) {
            desk.corners(stage.end, &lists, Ok(&stage.corners), &Room::enough())?;
            mirrors::corners(desk, stage.end, &lists, Ok(&stage.corners))?;
            desk.tally.add("long traces: corners", stage.corners.len());
            desk.tally.raise("long traces: most corners of one fit", stage.corners.len());
            last_range(desk, &stage, ranges)?;
        }
        stage.keep(&mut last_stages);
    }
    desk.tally.add("long traces: segments", last_stages.len());
    desk.tally.raise("long traces: most segments of one trace", last_stages.len());
    Ok(last_stages)
}

/// Compares Preview of the last range of a stage behind those before it.
fn last_range(desk: &mut Desk, stage: &Stage, ranges: &[Range]) -> Outcome {
    let service = service(ranges, slice::from_ref(stage), &mut desk.random);
    let place = stage.end - 1;
    let lists = Lists::of(&ranges[..place]);
    let effect = Effect::at(stage, ranges, service);
    desk.tally.add("long traces: previews", 1);
    desk.tally.raise("long traces: most ranges before the one previewed", place);
    desk.preview((service, &lists, &ranges[place]), Ok(&effect))?;
    mirrors::preview(desk, (service, &lists, &ranges[place]), Ok(&effect))
}

fn for_some_service(desk: &mut Desk, ranges: &[Range], last_stages: &[Stage], runs: &[Run]) -> Outcome {
    let service = service(ranges, last_stages, &mut desk.random);
    let segments: Vec<Segment> = last_stages.iter().map(|stage| stage.segment(ranges, service)).collect();
    let trace = Trace { address: address(&mut desk.random), service, ranges: ranges.to_vec() };
    let lists = Lists::of(ranges);
    let file = file::bytes(&trace);
    let text = report::accepted(&trace, &segments);
    desk.segment(service, &lists, Ok(&segments), &Room::enough())?;
    mirrors::segment(desk, service, &lists, Ok(&segments))?;
    latest::whole(desk, &trace, runs)?;
    desk.read(&file, Ok(&trace), &Room::enough())?;
    desk.write((trace.address, service, &lists), Ok(&file), &Room::enough())?;
    desk.report(&file, &text, &Room::enough())
}
