//! Humoraki for Rust: safe functions over the C interface that `humoraki.h` describes.
//!
//! With cargo this is the crate `humoraki`. A program without cargo takes the folder as a module, and tells the
//! compiler where libhumoraki.a is, which `rt lib` in crates/humoraki writes to crates/humoraki/out/.
//!
//! The functions here lend memory of the least length and hand back what was filled, and `panel` has a panel with
//! memory of its own; the functions of `lent` take memory that the caller lends. What the header asks of a caller holds
//! of every slice in Rust, so nothing is left to keep.
//!
//! An `Err` has the number of a refusal; `meaning` says it in words.

// A program that takes this as a module calls what it needs of it.
#![allow(dead_code)]

#[macro_use]
mod columns;
mod declarations;
pub mod lent;
pub mod panel;
#[cfg(test)]
mod tests;

use self::lent::{EffectMut, Lines, Ranges, RangesMut, RecordMut, Service, Table, TrendMut};

/// The least length of each list that `lent::read` fills.
pub const READ_ROOM: usize = 4096;

/// The least length of the file that `lent::write` fills.
pub const WRITE_ROOM: usize = 61_463;

/// The least length of each column that `lent::segment` fills.
pub const SEGMENT_ROOM: usize = 2048;

/// The least length of each slice that `lent::corners` and `lent::latest` fill.
pub const CORNER_ROOM: usize = 8192;

/// The least length of the text that `lent::report` fills: 256 bytes for each of 2,049 lines.
pub const REPORT_ROOM: usize = 524_544;

/// The least length of each of a panel's four lists, and of each list that `lent::head_ranges` fills.
pub const PANEL_ROOM: usize = 4096;

/// The largest number of entries, one for each head, that a panel may have.
pub const MOST_HEADS: usize = 64;

/// Stands for a time that there is not, in the columns `somes` and `alls`, and in `some` and `all` of `lent::preview`
/// and `lent::latest`.
pub const NONE: u64 = 4_294_967_296;

/// The number of the direction of a head whose signal dust raises, in `lent::Service` and `lent::RecordMut`.
pub const RISING: u32 = 0;

/// That of one whose signal dust lowers, as of a beam head.
pub const FALLING: u32 = 1;

/// The least step in `lent::Service`, with which service can start at any second. A file without a step has it.
pub const LEAST_STEP: u32 = 1;

/// The greatest step, a day.
pub const MOST_STEP: u32 = 86_400;

/// The kind that `lent::preview` sets where the range joins the last segment.
pub const JOINS: u32 = 0;

/// The kind that it sets where the range begins a segment.
pub const BEGINS: u32 = 1;

/// The way that dust moves a head's signal: up, or down, as of a beam head. A line has reached the level where it is at
/// or above it on a rising trace, at or below it on a falling one.
#[derive(Clone, Copy, Debug, PartialEq, Eq)]
pub enum Direction {
    Rising,
    Falling,
}

impl Direction {
    /// `RISING` or `FALLING`.
    pub fn number(self) -> u32 {
        match self {
            Direction::Rising => RISING,
            Direction::Falling => FALLING,
        }
    }
}

/// A trace: a detector's address, 1 to 65,535, its service level, the direction in which its signal drifts, the step, 1
/// to 86,400 seconds, at whose multiples service can start, and its ranges, in three lists of one length.
#[derive(Clone, Debug, PartialEq, Eq)]
pub struct Trace {
    pub address: u32,
    pub level: i32,
    pub direction: Direction,
    pub step: u32,
    pub times: Vec<u32>,
    pub lows: Vec<i32>,
    pub highs: Vec<i32>,
}

impl Trace {
    pub fn service(&self) -> Service {
        Service { level: self.level, direction: self.direction.number(), step: self.step }
    }

    pub fn ranges(&self) -> Ranges<'_> {
        Ranges { times: &self.times, lows: &self.lows, highs: &self.highs }
    }
}

/// A line: its value at t is (p * t + q) / d.
#[derive(Clone, Copy, Debug, PartialEq, Eq)]
pub struct Line {
    pub p: i64,
    pub q: i64,
    pub d: i64,
}

/// The lines of a segment and its two times, both multiples of the step, or open where it has one range. `None` is no
/// such time.
#[derive(Clone, Copy, Debug, PartialEq, Eq)]
pub enum Outlook {
    Open,
    Lines { slow: Line, fast: Line, some: Option<u32>, all: Option<u32> },
}

/// A run of ranges that one line fits.
#[derive(Clone, Copy, Debug, PartialEq, Eq)]
pub struct Segment {
    pub first_time: u32,
    pub last_time: u32,
    pub ranges: u32,
    pub outlook: Outlook,
}

/// What a range would do if it were added: join the last segment, or begin one; with the outlook of the last segment
/// then. What begins is always open.
#[derive(Clone, Copy, Debug, PartialEq, Eq)]
pub enum Effect {
    Joins(Outlook),
    Begins(Outlook),
}

/// The latest trend: the longest run at the end of a trace that some line fits. It has the last ranges, as many as told
/// here; `corners` are those of its fit, in corner order. A run of one range is open and has none, as has that of a
/// trace without ranges.
#[derive(Clone, Debug, PartialEq, Eq)]
pub struct Trend {
    pub ranges: usize,
    pub outlook: Outlook,
    pub corners: Vec<Line>,
}

/// A head on a panel, as `humoraki.h` has it: its address, 1 to 65,535, and how many ranges it holds.
#[repr(C)]
#[derive(Clone, Copy, Debug, PartialEq, Eq)]
pub struct Entry {
    pub address: u32,
    pub held: u32,
}

/// What the number of a refusal means.
pub fn meaning(refusal: u8) -> &'static str {
    match refusal {
        1 => "the file ends before a needed field, or inside a field",
        2 => "the tag is not the one due",
        3 => "the length is none that the tag may have",
        4 => {
            "address, level, direction, step, low or high outside its span, or in a file an address below 256 in two \
             bytes, a direction of 0 or a step of 1"
        }
        5 => "low above high",
        6 => "time not above the one before; on a panel, the one before of the same head",
        7 => "a 4,097th range",
        8 => "a lent slice to be filled, or a list of a panel, is too short",
        9 => "k is 0 or above the number of ranges",
        10 => "times, lows and highs differ in length",
        11 => "in a file, a value of a reading is infinite or not a number, or is not a whole number of 256ths",
        12 => "no entry of the panel has the address",
        13 => "the head holds 32 ranges or more, and the panel's common places are taken",
        14 => {
            "not a panel: it has 0 entries or over 64, one address in two of them, or one outside its span; some head \
             does not hold as many ranges as its address has places; or over 2,048 common places are taken"
        }
        _ => "no refusal has this number",
    }
}

/// The trace that a file's bytes hold. Readings of a logger, in binary32, become ranges in 256ths, and nothing is
/// rounded; such a file has its level in 256ths as it stands.
pub fn read(file: &[u8]) -> Result<Trace, u8> {
    let mut times = vec![0; READ_ROOM];
    let mut lows = vec![0; READ_ROOM];
    let mut highs = vec![0; READ_ROOM];
    let (mut address, mut level, mut direction, mut step, mut ranges) = (0, 0, 0, 0, 0);
    let into = RangesMut { times: &mut times, lows: &mut lows, highs: &mut highs };
    let record = RecordMut {
        address: &mut address,
        level: &mut level,
        direction: &mut direction,
        step: &mut step,
        ranges: &mut ranges,
    };
    lent::read(file, into, record)?;
    times.truncate(ranges);
    lows.truncate(ranges);
    highs.truncate(ranges);
    let direction = if direction == RISING { Direction::Rising } else { Direction::Falling };
    Ok(Trace { address, level, direction, step, times, lows, highs })
}

/// The bytes of a trace's file. An address up to 255 takes one of them, a larger one two; one past 65,535 is refused
/// with 4 and not cut. A falling trace has four bytes more, which say so, and a step above 1 has seven. The file has
/// ranges, also where the trace was read from readings.
pub fn write(trace: &Trace) -> Result<Vec<u8>, u8> {
    let mut file = vec![0; WRITE_ROOM];
    let mut count = 0;
    lent::write(trace.address, trace.service(), trace.ranges(), &mut file, &mut count)?;
    file.truncate(count);
    Ok(file)
}

/// The segments of a trace.
pub fn segment(trace: &Trace) -> Result<Vec<Segment>, u8> {
    let mut table = Table::holding(0);
    let mut count = 0;
    lent::segment(trace.service(), trace.ranges(), table.columns(), &mut count)?;
    Ok((0..count).map(|place| segment_at(&table, place)).collect())
}

/// The corners of the fit of the segment then running after the first k ranges, in corner order; no corners where that
/// segment has one range so far.
pub fn corners(trace: &Trace, k: usize) -> Result<Vec<Line>, u8> {
    let [mut ps, mut qs, mut ds] = [(); 3].map(|()| vec![0; CORNER_ROOM]);
    let mut count = 0;
    lent::corners(k, trace.ranges(), Lines { ps: &mut ps, qs: &mut qs, ds: &mut ds }, &mut count)?;
    Ok(lines_of(&ps, &qs, &ds, count))
}

/// The effect of a range before it is added to a trace: what `segment` tells of a copy with the range behind it.
pub fn preview(trace: &Trace, time: u32, low: i32, high: i32) -> Result<Effect, u8> {
    let [mut slow, mut fast] = [Line { p: 0, q: 0, d: 0 }; 2];
    let (mut kind, mut some, mut all) = (0, 0, 0);
    let effect = EffectMut {
        kind: &mut kind,
        slow_p: &mut slow.p,
        slow_q: &mut slow.q,
        slow_d: &mut slow.d,
        fast_p: &mut fast.p,
        fast_q: &mut fast.q,
        fast_d: &mut fast.d,
        some: &mut some,
        all: &mut all,
    };
    lent::preview(trace.service(), trace.ranges(), time, low, high, effect)?;
    let outlook = outlook_of(kind == BEGINS, slow, fast, some, all);
    Ok(if kind == JOINS { Effect::Joins(outlook) } else { Effect::Begins(outlook) })
}

/// The latest trend of a trace.
pub fn latest(trace: &Trace) -> Result<Trend, u8> {
    let [mut ps, mut qs, mut ds] = [(); 3].map(|()| vec![0; CORNER_ROOM]);
    let [mut slow, mut fast] = [Line { p: 0, q: 0, d: 0 }; 2];
    let (mut ranges, mut some, mut all, mut count) = (0, 0, 0, 0);
    let trend = TrendMut {
        ranges: &mut ranges,
        slow_p: &mut slow.p,
        slow_q: &mut slow.q,
        slow_d: &mut slow.d,
        fast_p: &mut fast.p,
        fast_q: &mut fast.q,
        fast_d: &mut fast.d,
        some: &mut some,
        all: &mut all,
        corners: &mut count,
    };
    lent::latest(trace.service(), trace.ranges(), Lines { ps: &mut ps, qs: &mut qs, ds: &mut ds }, trend)?;
    let outlook = outlook_of(count == 0, slow, fast, some, all);
    Ok(Trend { ranges, outlook, corners: lines_of(&ps, &qs, &ds, count) })
}

/// The text of a file's report. A file that is turned down has one too.
pub fn report(file: &[u8]) -> Vec<u8> {
    let mut text = vec![0; REPORT_ROOM];
    let mut count = 0;
    lent::report(file, &mut text, &mut count).expect("a text of the least length");
    text.truncate(count);
    text
}

fn segment_at(table: &Table, place: usize) -> Segment {
    Segment {
        first_time: table.first_times[place],
        last_time: table.last_times[place],
        ranges: table.counts[place],
        outlook: outlook_at(table, place),
    }
}

fn outlook_at(table: &Table, place: usize) -> Outlook {
    let slow = Line { p: table.slow_ps[place], q: table.slow_qs[place], d: table.slow_ds[place] };
    let fast = Line { p: table.fast_ps[place], q: table.fast_qs[place], d: table.fast_ds[place] };
    outlook_of(table.counts[place] == 1, slow, fast, table.somes[place], table.alls[place])
}

/// The first so many lines of three slices.
fn lines_of(ps: &[i64], qs: &[i64], ds: &[i64], count: usize) -> Vec<Line> {
    (0..count).map(|place| Line { p: ps[place], q: qs[place], d: ds[place] }).collect()
}

fn outlook_of(open: bool, slow: Line, fast: Line, some: u64, all: u64) -> Outlook {
    if open {
        return Outlook::Open;
    }
    Outlook::Lines { slow, fast, some: time(some), all: time(all) }
}

/// `NONE` is the least number that is no time.
fn time(number: u64) -> Option<u32> {
    u32::try_from(number).ok()
}
