//! Previews on small traces: each range behind those before it, one that does not come after them, and ranges at the
//! ends of all spans; and each of them in the mirror.

use crate::answers::{self, Effect, borrowed};
use crate::desk::Desk;
use crate::difference::{Difference, Outcome};
use crate::outlook::Outlook;
use crate::random::Random;
use crate::rounds::mirrors;
use crate::segments::{BY_TRYING, Segment};
use crate::trace::{LARGEST_VALUE, LAST_TIME, LEAST_VALUE, Lists, Range, Service, Trace};

/// What is counted of the ranges at the last time of all: those that join, begin, and do not come after the others.
const LAST: &str = "previews at the last time of all";
const AT_THE_END: [&str; 3] = ["joins", "begins", "6"];

/// Counts from 0, so that one that stays there is named.
pub fn count_none(desk: &mut Desk) {
    for name in AT_THE_END {
        desk.tally.add(&format!("{LAST}: {name}"), 0);
    }
}

pub fn compare(desk: &mut Desk, trace: &Trace, segments: &[Segment]) -> Outcome {
    let mut effects = Vec::new();
    for (place, range) in trace.ranges.iter().enumerate() {
        let lists = Lists::of(&trace.ranges[..place]);
        let effect = preview(desk, trace.service, &lists, range)?;
        effects.extend(effect);
        let again = Range { time: no_later(range.time, &mut desk.random), ..*range };
        preview(desk, trace.service, &lists.with(range), &again)?;
    }
    foretold(trace, &effects, segments)?;
    at_the_ends(desk, trace)
}

/// Preview, with the effect if there is one.
fn preview(
    desk: &mut Desk,
    service: Service,
    lists: &Lists,
    range: &Range,
) -> Result<Option<Effect>, Box<Difference>> {
    let expected = answers::preview(service, lists, range, BY_TRYING);
    desk.preview((service, lists, range), borrowed(&expected))?;
    mirrors::preview(desk, (service, lists, range), borrowed(&expected))?;
    Ok(expected.ok())
}

fn no_later(time: u32, random: &mut Random) -> u32 {
    random.pick(&[time, time, time.saturating_sub(1), 0])
}

/// The effects one after the other tell the segments of the whole trace: there are as many as ranges that begin one,
/// and the outlook of each is the last before another begins.
fn foretold(trace: &Trace, effects: &[Effect], segments: &[Segment]) -> Outcome {
    let mut outlooks: Vec<&Outlook> = Vec::new();
    for effect in effects {
        if !effect.begins {
            outlooks.pop();
        }
        outlooks.push(&effect.outlook);
    }
    if outlooks.iter().copied().eq(segments.iter().map(|segment| &segment.outlook)) {
        return Ok(());
    }
    Err(Box::new(Difference {
        call: format!("the brute force itself, previews, {}", trace.service.in_words()),
        ranges: Lists::of(&trace.ranges).in_words(),
        expected: format!("{segments:?}"),
        given: format!("{effects:?}"),
        file: Vec::new(),
    }))
}

/// The least, the largest and every value, at the last time of all.
fn at_the_ends(desk: &mut Desk, trace: &Trace) -> Outcome {
    let lists = Lists::of(&trace.ranges);
    for (low, high) in [(LEAST_VALUE, LEAST_VALUE), (LARGEST_VALUE, LARGEST_VALUE), (LEAST_VALUE, LARGEST_VALUE)] {
        let effect = preview(desk, trace.service, &lists, &Range { time: LAST_TIME, low, high })?;
        let name = AT_THE_END[effect.map_or(2, |effect| effect.begins as usize)];
        desk.tally.add(&format!("{LAST}: {name}"), 1);
    }
    Ok(())
}
