//! The worked cases of the scope, number by number: what is expected here is held to the scope before the library
//! is held to it.

use super::header_fields::{ADDRESSES, FALLING_FIELD, FIRST, LEVEL, STEP_FIELD};
use crate::answers::{self, borrowed};
use crate::desk::Desk;
use crate::difference::{Difference, Outcome};
use crate::file;
use crate::outlook::Outlook;
use crate::room::Room;
use crate::segments::{BY_TRYING, Segment};
use crate::trace::{Lists, Range, Service, Trace};

type Numbers = [i128; 3];

pub const SAMPLE: [(u32, i32, i32); 5] = [(10, 0, 4), (20, 4, 8), (30, 10, 14), (40, 9, 11), (50, 9, 12)];

/// A beam head: 40 − u for each value u of the sample.
pub const BEAM: [(u32, i32, i32); 5] = [(10, 36, 40), (20, 32, 36), (30, 26, 30), (40, 29, 31), (50, 28, 31)];

const BEAM_REPORT: &str = "\
detector 7 level 20 ranges 5 segments 2
segment 1 from 10 to 30 ranges 3 slow -7 470 10 fast -3 390 10 some 39 all 64
segment 2 from 40 to 50 ranges 2 slow -3 430 10 fast 1 105 5 some 77 all none
";

const SAMPLE_REPORT: &str = "\
detector 7 level 20 ranges 5 segments 2
segment 1 from 10 to 30 ranges 3 slow 3 10 10 fast 7 -70 10 some 39 all 64
segment 2 from 40 to 50 ranges 2 slow -1 95 5 fast 3 -30 10 some 77 all none
";

/// The sample with a step of 25.
const STEPPED_REPORT: &str = "\
detector 7 level 20 ranges 5 segments 2
segment 1 from 10 to 30 ranges 3 slow 3 10 10 fast 7 -70 10 some 50 all 75
segment 2 from 40 to 50 ranges 2 slow -1 95 5 fast 3 -30 10 some 100 all none
";

const AFTER_3: [Numbers; 5] = [[3, 10, 10], [2, 0, 5], [3, -20, 5], [7, -70, 10], [1, -10, 2]];
const AFTER_5: [Numbers; 4] = [[-1, 95, 5], [1, 70, 10], [3, -30, 10], [0, 9, 1]];

pub fn compare(desk: &mut Desk) -> Outcome {
    let sample = ranges(&SAMPLE);
    corners(desk, 3, &sample, Ok(&AFTER_3))?;
    corners(desk, 5, &sample, Ok(&AFTER_5))?;
    corners(desk, 0, &sample, Err(9))?;
    corners(desk, 3, &ranges(&[(0, 0, 0), (1, 1, 1), (2, 2, 2)]), Ok(&[[1, 0, 1]]))?;
    corners(desk, 3, &ranges(&[(0, 0, 0), (1, 1, 1), (2, 3, 3)]), Ok(&[]))?;
    let at_20 = Service::rising(20);
    let trace = Trace { address: 7, service: at_20, ranges: sample };
    report(desk, &file::bytes(&trace), SAMPLE_REPORT)?;
    segments(desk, at_20, &[(0, 0, 0), (1, 1, 1), (2, 3, 3)], Ok((2, true)))?;
    segments(desk, at_20, &[], Ok((0, false)))?;
    segments(desk, at_20, &[(5, 0, 1), (5, 0, 1)], Err(6))?;
    segments(desk, at_20, &[(5, 1, 0)], Err(5))?;
    segments(desk, at_20, &[(5, 0, 268_435_456)], Ok((1, true)))?;
    segments(desk, at_20, &[(5, 0, 268_435_457)], Err(4))?;
    report(desk, &[], "refused 1\n")?;
    addresses(desk)?;
    falling(desk)?;
    stepped(desk)?;
    directions(desk)?;
    steps(desk)
}

/// Falling traces, with *some* and *all* of each segment.
fn falling(desk: &mut Desk) -> Outcome {
    let trace = Trace { address: 7, service: Service::falling(20), ranges: ranges(&BEAM) };
    let file = file::bytes(&trace);
    agree("90".to_string(), file.len().to_string(), &Lists::of(&trace.ranges))?;
    report(desk, &file, BEAM_REPORT)?;
    times(desk, Service::falling(20), &BEAM, &[(Some(39), Some(64)), (Some(77), None)])?;
    times(desk, Service::falling(0), &SAMPLE, &[(None, None), (Some(95), None)])?;
    times(desk, Service::falling(10), &SAMPLE, &[(Some(30), None), (Some(50), None)])?;
    segments(desk, Service::rising(20).toward(2), &[(0, 1, 0)], Err(4))?;
    segments(desk, Service::rising(20).toward(256), &[], Err(4))?;
    segments(desk, Service::rising(20).toward(2), &[(0, 0, 4); 4097], Err(7))
}

/// Traces with a step, with *some* and *all* of each segment.
fn stepped(desk: &mut Desk) -> Outcome {
    let (at_20, at_9) = (Service::rising(20), Service::rising(9));
    let trace = Trace { address: 7, service: at_20.every(25), ranges: ranges(&SAMPLE) };
    let file = file::bytes(&trace);
    agree("93".to_string(), file.len().to_string(), &Lists::of(&trace.ranges))?;
    report(desk, &file, STEPPED_REPORT)?;
    let day = Some(86_400);
    times(desk, Service::falling(20).every(86_400), &BEAM, &[(day, day), (day, None)])?;
    for (service, time) in [(at_9.every(10), Some(10)), (at_9.every(11), None), (at_9.toward(1).every(11), Some(11))]
    {
        times(desk, service, &[(0, 10, 10), (10, 9, 9)], &[(time, time)])?;
    }
    for (step, time) in [(3, Some(4_294_967_295)), (2, None)] {
        times(desk, at_9.every(step), &[(0, 9, 9), (4_294_967_295, 9, 9)], &[(time, time)])?;
    }
    segments(desk, at_20.every(0), &[(0, 1, 0)], Err(4))?;
    segments(desk, at_20.every(86_401), &[], Err(4))?;
    segments(desk, at_20.every(0), &[(0, 0, 4); 4097], Err(7))
}

/// The field of address 7.
pub const ADDRESS: &[u8] = ADDRESSES[0];

/// The report of a file with this, level 20 and no range.
const NO_RANGES: &str = "detector 7 level 20 ranges 0 segments 0\n";

/// Files of address 7 and level 20 with a direction behind them.
fn directions(desk: &mut Desk) -> Outcome {
    let fields: [(&[u8], &str); 9] = [
        (&[4, 0, 1, 1], NO_RANGES),
        (&[4, 0, 1, 0], "refused 4\n"),
        (&[4, 0, 1, 2], "refused 4\n"),
        (&[4, 0, 1, 255], "refused 4\n"),
        (&[4, 0, 1], "refused 1\n"),
        (&[4, 0, 0], "refused 3\n"),
        (&[4, 0, 2, 0, 1], "refused 3\n"),
        (&[4, 0, 1, 1, 4, 0, 1, 1], "refused 2\n"),
        (&[FIRST, FALLING_FIELD].concat(), "refused 2\n"),
    ];
    for (field, text) in fields {
        report(desk, &[ADDRESS, LEVEL, field].concat(), text)?;
    }
    report(desk, &[ADDRESS, FALLING_FIELD, LEVEL].concat(), "refused 2\n")
}

/// The same with a step.
fn steps(desk: &mut Desk) -> Outcome {
    let (falling, minute) = (FALLING_FIELD, STEP_FIELD);
    let fields: [(&[u8], &str); 13] = [
        (&[5, 0, 4, 0, 0, 0, 2], NO_RANGES),
        (&[falling, &[5, 0, 4, 0, 1, 81, 128]].concat(), NO_RANGES),
        (&[5, 0, 4, 0, 0, 0, 0], "refused 4\n"),
        (&[5, 0, 4, 0, 0, 0, 1], "refused 4\n"),
        (&[5, 0, 4, 0, 1, 81, 129], "refused 4\n"),
        (&[5, 0, 4, 1, 0, 0, 2], "refused 4\n"),
        (&[5, 0, 4, 0, 0, 0], "refused 1\n"),
        (&[5, 0, 2, 0, 25], "refused 3\n"),
        (&[5, 0, 5, 0, 0, 0, 0, 25], "refused 3\n"),
        (&[minute, falling].concat(), "refused 2\n"),
        (&[minute, minute].concat(), "refused 2\n"),
        (&[falling, minute, minute].concat(), "refused 2\n"),
        (&[FIRST, minute].concat(), "refused 2\n"),
    ];
    for (field, text) in fields {
        report(desk, &[ADDRESS, LEVEL, field].concat(), text)?;
    }
    report(desk, &[ADDRESS, minute, LEVEL].concat(), "refused 2\n")
}

/// Files without ranges: the address field, with the level 20 behind it.
fn addresses(desk: &mut Desk) -> Outcome {
    let fields: [(&[u8], &str); 13] = [
        (&[1, 0, 1, 9], "detector 9 level 20 ranges 0 segments 0\n"),
        (&[1, 0, 1, 1], "detector 1 level 20 ranges 0 segments 0\n"),
        (&[1, 0, 1, 255], "detector 255 level 20 ranges 0 segments 0\n"),
        (&[1, 0, 2, 1, 0], "detector 256 level 20 ranges 0 segments 0\n"),
        (&[1, 0, 2, 4, 210], "detector 1234 level 20 ranges 0 segments 0\n"),
        (&[1, 0, 2, 255, 255], "detector 65535 level 20 ranges 0 segments 0\n"),
        (&[1, 0, 1, 0], "refused 4\n"),
        (&[1, 0, 2, 0, 0], "refused 4\n"),
        (&[1, 0, 2, 0, 7], "refused 4\n"),
        (&[1, 0, 2, 0, 255], "refused 4\n"),
        (&[1, 0, 0], "refused 3\n"),
        (&[1, 0, 3, 0, 1, 0], "refused 3\n"),
        (&[1, 1, 1, 7], "refused 3\n"),
    ];
    for (field, text) in fields {
        report(desk, &[field, LEVEL].concat(), text)?;
    }
    report(desk, &[1, 0, 2, 1], "refused 1\n")
}

pub fn ranges(numbers: &[(u32, i32, i32)]) -> Vec<Range> {
    numbers.iter().map(|&(time, low, high)| Range { time, low, high }).collect()
}

fn corners(desk: &mut Desk, k: usize, ranges: &[Range], scope: Result<&[Numbers], u8>) -> Outcome {
    let lists = Lists::of(ranges);
    let expected = answers::corners(k, &lists, BY_TRYING);
    let numbers = expected.as_ref().map(|corners| {
        let numbers = corners.iter().map(|line| [line.p, line.q, line.d]);
        numbers.collect::<Vec<Numbers>>()
    });
    let scope = scope.map(<[Numbers]>::to_vec);
    agree(format!("{scope:?}"), format!("{:?}", numbers.map_err(|number| *number)), &lists)?;
    desk.tally.add("worked cases of the scope", 1);
    desk.corners(k, &lists, borrowed(&expected), &Room::enough())
}

/// The number of segments, and whether the last is open.
fn segments(
    desk: &mut Desk,
    service: Service,
    numbers: &[(u32, i32, i32)],
    scope: Result<(usize, bool), u8>,
) -> Outcome {
    let lists = Lists::of(&ranges(numbers));
    let expected = answers::segment(service, &lists, BY_TRYING);
    let open = |last: Option<&Outlook>| last == Some(&Outlook::Open);
    let found =
        expected.as_ref().map(|segments| (segments.len(), open(segments.last().map(|segment| &segment.outlook))));
    agree(format!("{scope:?}"), format!("{:?}", found.map_err(|number| *number)), &lists)?;
    desk.tally.add("worked cases of the scope", 1);
    desk.segment(service, &lists, borrowed(&expected), &Room::enough())
}

/// *Some* and *all* of each segment, none of which is open.
fn times(
    desk: &mut Desk,
    service: Service,
    numbers: &[(u32, i32, i32)],
    scope: &[(Option<u32>, Option<u32>)],
) -> Outcome {
    let lists = Lists::of(&ranges(numbers));
    let expected = answers::segment(service, &lists, BY_TRYING);
    let times = |segment: &Segment| match segment.outlook {
        Outlook::Open => None,
        Outlook::Lines { some, all, .. } => Some((some, all)),
    };
    let found = expected.iter().flatten().map(times).collect::<Option<Vec<_>>>();
    agree(format!("{:?}", Some(scope.to_vec())), format!("{found:?}"), &lists)?;
    desk.tally.add("worked cases of the scope", 1);
    desk.segment(service, &lists, borrowed(&expected), &Room::enough())
}

pub fn report(desk: &mut Desk, file: &[u8], scope: &str) -> Outcome {
    let lists = Lists::of(&file::visible(file).ranges);
    agree(scope.to_string(), answers::report(file, BY_TRYING), &lists)?;
    desk.tally.add("worked cases of the scope", 1);
    desk.file(file, BY_TRYING)
}

pub fn agree(expected: String, given: String, lists: &Lists) -> Outcome {
    if expected == given {
        return Ok(());
    }
    Err(Box::new(Difference {
        call: "the brute force itself, against the scope".to_string(),
        ranges: lists.in_words(),
        expected,
        given,
        file: Vec::new(),
    }))
}
