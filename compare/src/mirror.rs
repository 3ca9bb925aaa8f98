//! The mirror image of what a call is handed, with level, lows and highs negated, lows and highs exchanged, the
//! direction turned and the same step, and the image of what it has to give then: each line the negated other one, slow
//! for fast, and the same times.
//!
//! What is expected of a call is found without this: here the image of one answer is held against another.

use crate::answers::Effect;
use crate::line::Line;
use crate::outlook::Outlook;
use crate::segments::Segment;
use crate::trace::{FALLING, Lists, RISING, Range, Service};
use crate::trends::{Run, Trend};

/// A direction that is none stays, and so does the least number of all, which has no negative and is outside its span.
pub fn service(service: Service) -> Service {
    let direction = match service.direction {
        RISING => FALLING,
        FALLING => RISING,
        other => other,
    };
    Service { level: service.level.wrapping_neg(), direction, step: service.step }
}

pub fn range(range: &Range) -> Range {
    Range { time: range.time, low: range.high.wrapping_neg(), high: range.low.wrapping_neg() }
}

pub fn ranges(ranges: &[Range]) -> Vec<Range> {
    ranges.iter().map(range).collect()
}

/// Of lists that differ in length too.
pub fn lists(lists: &Lists) -> Lists {
    let negated = |list: &[i32]| list.iter().map(|value| value.wrapping_neg()).collect();
    Lists { times: lists.times.clone(), lows: negated(&lists.highs), highs: negated(&lists.lows) }
}

pub fn outlook(outlook: &Outlook) -> Outlook {
    match *outlook {
        Outlook::Open => Outlook::Open,
        Outlook::Lines { slow, fast, some, all } => {
            Outlook::Lines { slow: line(&fast), fast: line(&slow), some, all }
        }
    }
}

pub fn segments(segments: &[Segment]) -> Vec<Segment> {
    let segment = |of: &Segment| Segment { outlook: outlook(&of.outlook), ..of.clone() };
    segments.iter().map(segment).collect()
}

pub fn effect(effect: &Effect) -> Effect {
    Effect { begins: effect.begins, outlook: outlook(&effect.outlook) }
}

pub fn runs(runs: &[Run]) -> Vec<Run> {
    runs.iter().map(|run| Run { ranges: run.ranges, corners: corners(&run.corners) }).collect()
}

pub fn trend(trend: &Trend) -> Trend {
    Trend { ranges: trend.ranges, outlook: outlook(&trend.outlook), corners: corners(&trend.corners) }
}

/// Half a turn of the polygon: the ring goes on the same way round, and begins with what was the fast line.
pub fn corners(corners: &[Line]) -> Vec<Line> {
    let mut image: Vec<Line> = corners.iter().map(line).collect();
    let places = 0..corners.len();
    if let Some(fast) = places.max_by(|&a, &b| corners[a].order(&corners[b])) {
        image.rotate_left(fast);
    }
    image
}

fn line(line: &Line) -> Line {
    Line { p: -line.p, q: -line.q, d: line.d }
}
