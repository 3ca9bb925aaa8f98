//! Makes a trace file from lines of text, and lines from a trace file; tells its latest trend.
//!
//!     trace-tool make < LINES > FILE
//!     trace-tool show < FILE > LINES
//!     trace-tool latest < FILE > LATEST
//!
//! The file itself is written and read by the proved library, which finds the trend too. Readings of a logger are
//! written here, as the library writes ranges only; it reads them before they are sent.

use std::ffi::OsStr;
use std::io::{self, Read, Write};
use std::process::ExitCode;

mod lines;
mod reading_text;
mod readings;
mod trend_text;

use humoraki::{Direction, Trace};
use lines::{FALLING, Lines, NO_STEP, STEP};

const USAGE: &str = "usage: trace-tool make < LINES > FILE
       trace-tool show < FILE > LINES
       trace-tool latest < FILE > LATEST
LINES: first 'detector ADDRESS level LEVEL', then 'falling' if dust lowers the signal, then
       'step SECONDS' if service can start only at the multiples of that, then 'time low high'
       for each range, or, of a logger, 'reading TIME VALUE' or 'reading TIME LOW HIGH' for each,
       in decimals that are whole in 256ths, with the level in 256ths; blank lines do not count,
       nor does what follows a '#'
LATEST: the longest run at the end that some line fits, in the words of a report";

/// The report program reads this much of a file; later bytes cannot matter.
const MOST_BYTES: u64 = 65_536;

fn main() -> ExitCode {
    let mut words = std::env::args_os().skip(1);
    let command = words.next().filter(|_| words.next().is_none());
    let made = match command.as_deref().and_then(OsStr::to_str) {
        Some("make") => make(),
        Some("show") => show(),
        Some("latest") => latest(),
        _ => {
            eprintln!("{USAGE}");
            return ExitCode::from(2);
        }
    };
    match made.and_then(|bytes| send(&bytes)) {
        Ok(()) => ExitCode::SUCCESS,
        Err(message) => {
            eprintln!("trace-tool: {message}");
            ExitCode::FAILURE
        }
    }
}

/// The trace file of the lines on standard input.
fn make() -> Result<Vec<u8>, String> {
    let mut text = String::new();
    io::stdin()
        .read_to_string(&mut text)
        .map_err(|error| format!("standard input does not read as text: {error}"))?;
    let lines = lines::parse(&text)?;
    let trace = trace_of(&lines);
    if lines.readings.is_empty() {
        return humoraki::write(&trace).map_err(refused);
    }
    let file = [header_of(&trace)?, lines.readings].concat();
    match humoraki::read(&file).map_err(refused)? == trace {
        true => Ok(file),
        false => Err("the file that was made holds another trace".to_string()),
    }
}

/// The bytes of a trace's file before its ranges.
fn header_of(trace: &Trace) -> Result<Vec<u8>, String> {
    let header = Trace { times: Vec::new(), lows: Vec::new(), highs: Vec::new(), ..*trace };
    humoraki::write(&header).map_err(refused)
}

/// The lines of the trace file on standard input.
fn show() -> Result<Vec<u8>, String> {
    let file = input()?;
    let trace = humoraki::read(&file).map_err(refused)?;
    let fields = &file[header_of(&trace)?.len()..];
    let ranges = match reading_text::are_readings(fields) {
        true => reading_text::text_of(&trace, fields),
        false => ranges_text(&trace),
    };
    Ok((header_text(&trace) + &ranges).into_bytes())
}

/// The latest trend of the trace file on standard input.
fn latest() -> Result<Vec<u8>, String> {
    let trace = humoraki::read(&input()?).map_err(refused)?;
    let trend = humoraki::latest(&trace).map_err(refused)?;
    Ok(trend_text::text_of(&trace, &trend).into_bytes())
}

/// The file on standard input.
fn input() -> Result<Vec<u8>, String> {
    let mut file = Vec::new();
    io::stdin().take(MOST_BYTES).read_to_end(&mut file).map_err(|error| format!("standard input: {error}"))?;
    Ok(file)
}

fn send(bytes: &[u8]) -> Result<(), String> {
    let mut output = io::stdout();
    output.write_all(bytes).and_then(|()| output.flush()).map_err(|error| format!("standard output: {error}"))
}

fn refused(number: u8) -> String {
    format!("refused {number}: {}", humoraki::meaning(number))
}

fn trace_of(lines: &Lines) -> Trace {
    Trace {
        address: lines.address,
        level: lines.level,
        direction: if lines.falling { Direction::Falling } else { Direction::Rising },
        step: lines.step,
        times: lines.ranges.iter().map(|range| range.time).collect(),
        lows: lines.ranges.iter().map(|range| range.low).collect(),
        highs: lines.ranges.iter().map(|range| range.high).collect(),
    }
}

/// The lines of a trace before its ranges, as `lines::parse` reads them.
fn header_text(trace: &Trace) -> String {
    let mut text = format!("detector {} level {}\n", trace.address, trace.level);
    if trace.direction == Direction::Falling {
        text += &format!("{FALLING}\n");
    }
    if trace.step != NO_STEP {
        text += &format!("{STEP} {}\n", trace.step);
    }
    text
}

fn ranges_text(trace: &Trace) -> String {
    let ranges = trace.times.iter().zip(&trace.lows).zip(&trace.highs);
    ranges.map(|((time, low), high)| format!("{time} {low} {high}\n")).collect()
}
