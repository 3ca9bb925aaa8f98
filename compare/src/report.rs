//! The text of a report, from the words of the scope.

use crate::line::Line;
use crate::outlook::Outlook;
use crate::segments::Segment;
use crate::trace::{Service, Trace};

pub fn refused(number: u8) -> String {
    format!("refused {number}\n")
}

pub fn accepted(trace: &Trace, segments: &[Segment]) -> String {
    let Trace { address, service: Service { level, .. }, ranges } = trace;
    let (ranges, count) = (ranges.len(), segments.len());
    let mut text = format!("detector {address} level {level} ranges {ranges} segments {count}\n");
    for (place, segment) in segments.iter().enumerate() {
        text += &segment_line(place + 1, segment);
    }
    text
}

pub fn segment_line(place: usize, segment: &Segment) -> String {
    let Segment { first, last, count, outlook } = segment;
    let start = format!("segment {place} from {first} to {last} ranges {count}");
    match outlook {
        Outlook::Open => format!("{start} open\n"),
        Outlook::Lines { slow, fast, some, all } => {
            let (slow, fast) = (line(slow), line(fast));
            let (some, all) = (time(some), time(all));
            format!("{start} slow {slow} fast {fast} some {some} all {all}\n")
        }
    }
}

fn line(line: &Line) -> String {
    format!("{} {} {}", line.p, line.q, line.d)
}

fn time(time: &Option<u32>) -> String {
    time.map_or("none".to_string(), |time| time.to_string())
}
