//! Reads a report's text: what the report program prints of a trace. And a latest trend's, which has the words of a
//! segment's line.

/// A line: its value at t is (p * t + q) / d.
#[derive(Clone, Copy)]
pub struct Line {
    pub p: f64,
    pub q: f64,
    pub d: f64,
}

/// The two lines of a segment and its two times; `None` is no such time.
#[derive(Clone, Copy)]
pub struct Outlook {
    pub slow: Line,
    pub fast: Line,
    pub some: Option<u32>,
    pub all: Option<u32>,
}

/// What a run of ranges is: a segment, by its place from 1, or the latest trend.
#[derive(Clone, Copy)]
pub enum Kind {
    Segment(usize),
    Latest,
}

/// A run of ranges: its first and last time, its number of ranges, and its outlook unless it is
/// open.
pub struct Run {
    pub kind: Kind,
    pub times: (u32, u32),
    pub ranges: usize,
    pub outlook: Option<Outlook>,
}

/// The segments of a report, or the first line that is none of a trace's report.
pub fn parse(text: &str) -> Result<Vec<Run>, String> {
    let mut lines = text.lines();
    let first = lines.next().unwrap_or_default();
    if !first.starts_with("detector ") {
        return Err(format!("expected the report of a trace, found '{first}'"));
    }
    lines.map(|line| segment(line).ok_or_else(|| format!("expected a segment, found '{line}'"))).collect()
}

/// The latest trend of a trace, or the text that is none.
pub fn parse_latest(text: &str) -> Result<Run, String> {
    let line = text.trim_end();
    latest(line).ok_or_else(|| format!("expected a latest trend, found '{line}'"))
}

fn segment(line: &str) -> Option<Run> {
    let (place, rest) = line.strip_prefix("segment ")?.split_once(' ')?;
    run(Kind::Segment(place.parse().ok()?), rest)
}

fn latest(line: &str) -> Option<Run> {
    run(Kind::Latest, line.strip_prefix("latest ")?)
}

fn run(kind: Kind, told: &str) -> Option<Run> {
    let words: Vec<&str> = told.split(' ').collect();
    let ["from", first, "to", last, "ranges", ranges, rest @ ..] = &words[..] else {
        return None;
    };
    Some(Run {
        kind,
        times: (first.parse().ok()?, last.parse().ok()?),
        ranges: ranges.parse().ok()?,
        outlook: match rest {
            ["open"] => None,
            _ => Some(outlook(rest)?),
        },
    })
}

fn outlook(words: &[&str]) -> Option<Outlook> {
    let ["slow", p1, q1, d1, "fast", p2, q2, d2, "some", some, "all", all] = words else {
        return None;
    };
    Some(Outlook {
        slow: Line { p: p1.parse().ok()?, q: q1.parse().ok()?, d: d1.parse().ok()? },
        fast: Line { p: p2.parse().ok()?, q: q2.parse().ok()?, d: d2.parse().ok()? },
        some: time(some)?,
        all: time(all)?,
    })
}

fn time(word: &str) -> Option<Option<u32>> {
    match word {
        "none" => Some(None),
        _ => word.parse().ok().map(Some),
    }
}
