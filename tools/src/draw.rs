//! Draws a trace and its report as a picture (SVG):
//!
//!     draw LINES REPORT [LATEST] > PICTURE
//!
//! LINES is the trace as text, as trace-tool shows it; REPORT is what the report program prints of
//! it; LATEST, which may be left out, is its latest trend, as trace-tool tells it. The numbers in
//! the picture are copied from these, and readings of a logger are drawn in 256ths, as its report has
//! them; only places are rounded.

use std::io::{self, Write};
use std::path::{Path, PathBuf};
use std::process::ExitCode;

mod axes;
mod drawing;
mod lines;
mod readings;
mod report_text;
mod svg;

use lines::Range;
use report_text::Run;

fn main() -> ExitCode {
    let words: Vec<PathBuf> = std::env::args_os().skip(1).map(PathBuf::from).collect();
    let (lines, report, latest) = match &words[..] {
        [lines, report] => (lines, report, None),
        [lines, report, latest] => (lines, report, Some(latest)),
        _ => {
            eprintln!("usage: draw LINES REPORT [LATEST] > PICTURE");
            return ExitCode::from(2);
        }
    };
    match picture_of(lines, report, latest).and_then(|picture| send(&picture)) {
        Ok(()) => ExitCode::SUCCESS,
        Err(message) => {
            eprintln!("draw: {message}");
            ExitCode::FAILURE
        }
    }
}

fn picture_of(lines: &Path, report: &Path, latest: Option<&PathBuf>) -> Result<String, String> {
    let trace = lines::parse(&text_of(lines)?)?;
    let segments = report_text::parse(&text_of(report)?)?;
    let latest = latest.map(|path| report_text::parse_latest(&text_of(path)?)).transpose()?;
    if trace.ranges.is_empty() {
        return Err("a trace without ranges has no picture".to_string());
    }
    if !belong(&trace.ranges, &segments) {
        return Err("the report is that of another trace".to_string());
    }
    if !latest.iter().all(|run| ends(&trace.ranges, run)) {
        return Err("the latest trend is that of another trace".to_string());
    }
    Ok(drawing::picture(&trace, &segments, latest.as_ref()))
}

/// Whether the segments' first and last times are those of ranges, from the first to the last.
fn belong(ranges: &[Range], segments: &[Run]) -> bool {
    let mut rest = ranges;
    for segment in segments {
        let Some((run, after)) = rest.split_at_checked(segment.ranges) else {
            return false;
        };
        if times_of(run) != Some(segment.times) {
            return false;
        }
        rest = after;
    }
    rest.is_empty()
}

/// Whether a run's first and last time are those of the last ranges, as many as it has.
fn ends(ranges: &[Range], run: &Run) -> bool {
    let first = ranges.len().checked_sub(run.ranges);
    first.and_then(|first| times_of(&ranges[first..])) == Some(run.times)
}

fn times_of(ranges: &[Range]) -> Option<(u32, u32)> {
    ranges.first().zip(ranges.last()).map(|(first, last)| (first.time, last.time))
}

fn text_of(path: &Path) -> Result<String, String> {
    std::fs::read_to_string(path).map_err(|error| format!("{}: {error}", path.display()))
}

fn send(picture: &str) -> Result<(), String> {
    io::stdout().write_all(picture.as_bytes()).map_err(|error| format!("standard output: {error}"))
}
