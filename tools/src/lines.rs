//! Reads a trace from text: `detector ADDRESS level LEVEL`, then a line `falling` if dust lowers the
//! signal, then a line `step SECONDS` if service can start only at the multiples of that, then a line
//! `time low high` for each range. Of a logger all ranges are readings instead: `reading TIME VALUE` or
//! `reading TIME LOW HIGH`, with decimal numbers. Blank lines do not count, nor does what follows a `#`.
//!
//! The library turns down the same input, but by a number alone. What is tried here tells a person
//! which line is wrong, and how.

use crate::readings::{Reading, Value};

/// A range: at a time, the signal lay between low and high.
#[derive(Clone, Copy)]
pub struct Range {
    pub time: u32,
    pub low: i32,
    pub high: i32,
}

/// What the lines of a trace say.
pub struct Lines {
    pub address: u32,
    pub level: i32,
    pub falling: bool,
    pub step: u32,
    /// those of readings in 256ths
    pub ranges: Vec<Range>,
    /// the readings as fields of a file, if they are what the lines have
    pub readings: Vec<u8>,
}

const MOST_RANGES: usize = 4096;
const FIRST_LINE: &str = "detector ADDRESS level LEVEL";

/// The line after the first of a trace whose signal falls.
pub const FALLING: &str = "falling";

/// The word before the step, in the line after these of a trace that has one.
pub const STEP: &str = "step";

/// The word before the numbers of a reading.
pub const READING: &str = "reading";

/// The step of a trace without that line: every second will do.
pub const NO_STEP: u32 = 1;

/// A number by its name, and where it has to lie, ends included.
struct Span {
    name: &'static str,
    least: i64,
    greatest: i64,
}

const fn value(name: &'static str) -> Span {
    Span { name, least: -268_435_456, greatest: 268_435_456 }
}

const ADDRESS: Span = Span { name: "address", least: 1, greatest: 65_535 };
const STEP_SPAN: Span = Span { name: STEP, least: 2, greatest: 86_400 };
const TIME: Span = Span { name: "time", least: 0, greatest: 4_294_967_295 };
const LEVEL: Span = value("level");
const LOW: Span = value("low");
const HIGH: Span = value("high");

/// The trace that a text describes, or what is wrong with its first bad line.
pub fn parse(text: &str) -> Result<Lines, String> {
    let lines =
        text.lines().zip(1..).map(|(line, number)| (number, words(line))).filter(|(_, words)| !words.is_empty());
    let mut lines = lines.peekable();
    let Some((number, first)) = lines.next() else {
        return Err(format!("no lines; expected first: {FIRST_LINE}"));
    };
    let (address, level) = parse_first(&first).map_err(|wrong| at_line(number, wrong))?;
    let falling = lines.next_if(|(_, words)| is_falling(words)).is_some();
    let step = match lines.next_if(|(_, words)| is_step(words)) {
        Some((number, words)) => parse_step(&words).map_err(|wrong| at_line(number, wrong))?,
        None => NO_STEP,
    };
    let of_logger = lines.peek().is_some_and(|(_, words)| is_reading(words));
    let (mut ranges, mut readings) = (Vec::new(), Vec::new());
    for (number, words) in lines {
        let (range, field) = parse_next(&words, of_logger, &ranges).map_err(|wrong| at_line(number, wrong))?;
        ranges.push(range);
        readings.extend(field);
    }
    Ok(Lines { address, level, falling, step, ranges, readings })
}

fn at_line(number: u64, wrong: String) -> String {
    format!("line {number}: {wrong}")
}

fn words(line: &str) -> Vec<&str> {
    let told = line.split('#').next().unwrap_or_default();
    told.split_whitespace().collect()
}

fn parse_first(words: &[&str]) -> Result<(u32, i32), String> {
    let ["detector", address, "level", level] = words else {
        let found = words.join(" ");
        return Err(format!("found '{found}'; expected first: {FIRST_LINE}"));
    };
    // The spans of address and level lie within their types, as do those of a step and a range below.
    Ok((ADDRESS.parse(address)? as u32, LEVEL.parse(level)? as i32))
}

fn parse_step(words: &[&str]) -> Result<u32, String> {
    let [_, seconds] = words else {
        let found = words.join(" ");
        return Err(format!("found '{found}'; expected: {STEP} SECONDS"));
    };
    Ok(STEP_SPAN.parse(seconds)? as u32)
}

/// The range that a line's words give, after the ranges before it, and the field of it if it is a reading.
fn parse_next(words: &[&str], of_logger: bool, before: &[Range]) -> Result<(Range, Vec<u8>), String> {
    let (range, field) = match of_logger {
        true => parse_reading(words).map(|reading| (reading.range(), reading.field()))?,
        false => (parse_range(words)?, Vec::new()),
    };
    if before.len() == MOST_RANGES {
        return Err(format!("one range too many; expected at most {MOST_RANGES}"));
    }
    match (words, before.last()) {
        // A spot value is not above itself, so the last two words are low and high.
        ([.., low, high], _) if range.low > range.high => {
            Err(format!("low {low} is above high {high}; expected low at most high"))
        }
        (_, Some(Range { time, .. })) if range.time <= *time => {
            Err(format!("time {} is not above {time}, the time before; expected rising times", range.time))
        }
        _ => Ok((range, field)),
    }
}

fn is_falling(words: &[&str]) -> bool {
    words == [FALLING]
}

fn is_step(words: &[&str]) -> bool {
    words.first() == Some(&STEP)
}

fn is_reading(words: &[&str]) -> bool {
    words.first() == Some(&READING)
}

/// What a line is told that is none of those that are due.
fn other(words: &[&str], due: &str) -> String {
    let found = words.join(" ");
    if is_falling(words) {
        format!("found '{found}'; expected it once, directly after the first line")
    } else if is_step(words) {
        format!("found '{found}'; expected it once, before the first range")
    } else {
        format!("found '{found}'; expected {due}")
    }
}

fn parse_range(words: &[&str]) -> Result<Range, String> {
    let due = "three numbers: time low high";
    match words {
        [READING, ..] => Err(other(words, &format!("no reading after a range, but {due}"))),
        [time, low, high] if !is_step(words) => {
            Ok(Range { time: parse_time(time)?, low: LOW.parse(low)? as i32, high: HIGH.parse(high)? as i32 })
        }
        _ => Err(other(words, due)),
    }
}

fn parse_reading(words: &[&str]) -> Result<Reading, String> {
    match words {
        [READING, time, value] => {
            Ok(Reading { time: parse_time(time)?, low: Value::parse("value", value)?, high: None })
        }
        [READING, time, low, high] => {
            let (time, low) = (parse_time(time)?, Value::parse(LOW.name, low)?);
            Ok(Reading { time, low, high: Some(Value::parse(HIGH.name, high)?) })
        }
        _ => Err(other(words, "a reading: reading TIME VALUE, or reading TIME LOW HIGH")),
    }
}

fn parse_time(word: &str) -> Result<u32, String> {
    Ok(TIME.parse(word)? as u32)
}

impl Span {
    fn parse(&self, word: &str) -> Result<i64, String> {
        let inside = |number: &i64| (self.least..=self.greatest).contains(number);
        word.parse().ok().filter(inside).ok_or_else(|| self.wrong(word))
    }

    fn wrong(&self, word: &str) -> String {
        let how = match is_whole(word) {
            true => "is outside its span",
            false => "is not a whole number",
        };
        let Span { name, least, greatest } = self;
        format!("{name} {word} {how}; expected {least} to {greatest}")
    }
}

/// Digits, perhaps after a sign. Digits that no machine number holds are a whole number too.
fn is_whole(word: &str) -> bool {
    let digits = word.strip_prefix(['+', '-']).unwrap_or(word);
    !digits.is_empty() && digits.bytes().all(|byte| byte.is_ascii_digit())
}
