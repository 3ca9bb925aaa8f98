//! Prints the two times of a trace file's last segment:
//!
//!     rustc --edition 2024 -O examples/times.rs -L crates/humoraki/out -o target/times
//!     target/times samples/example.trace

use std::fs::File;
use std::io::{self, Read, Write};
use std::path::Path;
use std::process::ExitCode;

#[path = "../include/humoraki/mod.rs"]
mod humoraki;

use humoraki::{Outlook, Segment};

/// The first 61,466 bytes decide, so bytes after these cannot matter.
const MOST_BYTES: u64 = 65_536;

fn main() -> ExitCode {
    let Some(path) = std::env::args_os().nth(1) else {
        eprintln!("usage: times FILE");
        return ExitCode::from(2);
    };
    match print_times(Path::new(&path)) {
        Ok(code) => code,
        Err(message) => {
            eprintln!("{message}");
            ExitCode::FAILURE
        }
    }
}

fn print_times(path: &Path) -> Result<ExitCode, String> {
    let file = read_file(path).map_err(|error| format!("{}: {error}", path.display()))?;
    let segments = humoraki::read(&file).and_then(|trace| humoraki::segment(&trace));
    let (text, code) = match segments {
        Ok(segments) => (times(segments.last()), ExitCode::SUCCESS),
        Err(refusal) => (format!("refused {refusal}"), ExitCode::FAILURE),
    };
    writeln!(io::stdout(), "{text}").map_err(|error| format!("standard output: {error}"))?;
    Ok(code)
}

fn read_file(path: &Path) -> io::Result<Vec<u8>> {
    let mut file = Vec::new();
    File::open(path)?.take(MOST_BYTES).read_to_end(&mut file)?;
    Ok(file)
}

fn times(last: Option<&Segment>) -> String {
    match last.map(|segment| segment.outlook) {
        None => "no segments".to_string(),
        Some(Outlook::Open) => "open".to_string(),
        Some(Outlook::Lines { some, all, .. }) => format!("some {} all {}", time(some), time(all)),
    }
}

fn time(time: Option<u32>) -> String {
    time.map_or("none".to_string(), |time| time.to_string())
}
