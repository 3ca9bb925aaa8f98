//! The calls on memory that the caller lends: slices of any length, and the numbers that a call sets.
//!
//! Nothing is allocated here. After `Ok` the numbers are set and the start of each slice is filled, and entries past
//! the count hold what they held before. An `Err` has the number of a refusal, and then nothing at all has changed.
//! A panel is both read and changed, by `add`.

use super::declarations::{
    humoraki_add, humoraki_corners, humoraki_head_ranges, humoraki_latest, humoraki_preview, humoraki_read,
    humoraki_report, humoraki_segment, humoraki_write,
};
use super::{Entry, SEGMENT_ROOM};

/// What a detector is watched for: the level, the number of the direction in which its signal drifts, `RISING` or
/// `FALLING`, and the step, `LEAST_STEP` to `MOST_STEP` seconds, at whose multiples service can start. Any other number
/// is refused with 4, and none is cut to fit.
#[derive(Clone, Copy, Debug, PartialEq, Eq)]
pub struct Service {
    pub level: i32,
    pub direction: u32,
    pub step: u32,
}

/// The ranges of a trace, in three lists.
#[derive(Clone, Copy)]
pub struct Ranges<'a> {
    pub times: &'a [u32],
    pub lows: &'a [i32],
    pub highs: &'a [i32],
}

/// Three slices for lines: the value at t is (p * t + q) / d.
pub struct Lines<'a> {
    pub ps: &'a mut [i64],
    pub qs: &'a mut [i64],
    pub ds: &'a mut [i64],
}

/// The numbers of a trace's record, to be set; `direction` is `RISING` or `FALLING`, `step` is 1 where the file has none.
pub struct RecordMut<'a> {
    pub address: &'a mut u32,
    pub level: &'a mut i32,
    pub direction: &'a mut u32,
    pub step: &'a mut u32,
    pub ranges: &'a mut usize,
}

/// The numbers of an effect, to be set: its kind, `JOINS` or `BEGINS`, and the lines and times of an outlook, with 0 in
/// all eight where it is open.
pub struct EffectMut<'a> {
    pub kind: &'a mut u32,
    pub slow_p: &'a mut i64,
    pub slow_q: &'a mut i64,
    pub slow_d: &'a mut i64,
    pub fast_p: &'a mut i64,
    pub fast_q: &'a mut i64,
    pub fast_d: &'a mut i64,
    pub some: &'a mut u64,
    pub all: &'a mut u64,
}

/// The numbers of a latest trend, to be set: how many ranges its run has, the lines and times of its outlook, with 0 in
/// all eight where it is open, and how many corners its fit has.
pub struct TrendMut<'a> {
    pub ranges: &'a mut usize,
    pub slow_p: &'a mut i64,
    pub slow_q: &'a mut i64,
    pub slow_d: &'a mut i64,
    pub fast_p: &'a mut i64,
    pub fast_q: &'a mut i64,
    pub fast_d: &'a mut i64,
    pub some: &'a mut u64,
    pub all: &'a mut u64,
    pub corners: &'a mut usize,
}

/// A panel to be read: one entry for each head, and the four lists with the ranges of all of them.
#[derive(Clone, Copy)]
pub struct Panel<'a> {
    pub entries: &'a [Entry],
    pub addresses: &'a [u32],
    pub ranges: Ranges<'a>,
}

/// Three slices for ranges.
pub struct RangesMut<'a> {
    pub times: &'a mut [u32],
    pub lows: &'a mut [i32],
    pub highs: &'a mut [i32],
}

/// A panel to be changed.
pub struct PanelMut<'a> {
    pub entries: &'a mut [Entry],
    pub addresses: &'a mut [u32],
    pub ranges: RangesMut<'a>,
}

/// Calls a function of the library. Every one of them takes first values, then slices to read, then a value that tells
/// what is sought in them, then slices to fill or to change, and last further values and the numbers to set; a slice
/// goes as its pointer and its length.
macro_rules! call {
    ($function:ident(
        $($value:expr),*; $($read:expr),*; $($sought:expr)?; $($filled:expr),*; $($last:expr),*
    )) => {{
        // SAFETY: each pointer is a slice's own and has its length beside it. What is filled, set or changed is
        // borrowed as mutable, so it overlaps nothing else.
        let refusal = unsafe {
            $function(
                $($value,)*
                $($read.as_ptr(), $read.len(),)*
                $($sought,)?
                $($filled.as_mut_ptr(), $filled.len(),)*
                $($last,)*
            )
        };
        if refusal == 0 { Ok(()) } else { Err(refusal) }
    }};
}

/// Reads a trace file: fills three slices with its ranges, and sets the numbers of its record.
pub fn read(file: &[u8], into: RangesMut, record: RecordMut) -> Result<(), u8> {
    let RecordMut { address, level, direction, step, ranges } = record;
    call!(humoraki_read(; file; ; into.times, into.lows, into.highs; address, level, direction, step, ranges))
}

/// Fills a slice with the bytes of a trace's file, and sets their count. An address is 1 to 65,535; any other number is
/// refused with 4.
pub fn write(address: u32, service: Service, ranges: Ranges, file: &mut [u8], count: &mut usize) -> Result<(), u8> {
    let Service { level, direction, step } = service;
    call!(humoraki_write(address, level, direction, step; ranges.times, ranges.lows, ranges.highs; ; file; count))
}

/// Fills three slices with the corners of the fit of the segment then running after the first k ranges, and sets their
/// count: 0 where that segment has one range so far.
pub fn corners(k: usize, ranges: Ranges, corners: Lines, count: &mut usize) -> Result<(), u8> {
    call!(humoraki_corners(k; ranges.times, ranges.lows, ranges.highs; ; corners.ps, corners.qs, corners.ds; count))
}

/// Sets the numbers to the effect that a range would have behind some ranges, at most 4,095; none of these is changed.
pub fn preview(
    service: Service,
    ranges: Ranges,
    time: u32,
    low: i32,
    high: i32,
    effect: EffectMut,
) -> Result<(), u8> {
    let Service { level, direction, step } = service;
    let EffectMut { kind, slow_p, slow_q, slow_d, fast_p, fast_q, fast_d, some, all } = effect;
    call!(humoraki_preview(
        level, direction, step; ranges.times, ranges.lows, ranges.highs; ; ;
        time, low, high, kind, slow_p, slow_q, slow_d, fast_p, fast_q, fast_d, some, all
    ))
}

/// Fills three slices with the corners of the longest run at the end that some line fits, and sets the numbers of this
/// trend.
pub fn latest(service: Service, ranges: Ranges, corners: Lines, trend: TrendMut) -> Result<(), u8> {
    let Service { level, direction, step } = service;
    let TrendMut { ranges: run, slow_p, slow_q, slow_d, fast_p, fast_q, fast_d, some, all, corners: count } = trend;
    call!(humoraki_latest(
        level, direction, step; ranges.times, ranges.lows, ranges.highs; ; corners.ps, corners.qs, corners.ds;
        run, slow_p, slow_q, slow_d, fast_p, fast_q, fast_d, some, all, count
    ))
}

/// Fills a slice with the text of a file's report, and sets the count of its bytes.
pub fn report(file: &[u8], text: &mut [u8], count: &mut usize) -> Result<(), u8> {
    call!(humoraki_report(; file; ; text; count))
}

/// Adds a range to a panel: it gets the next place of the four lists, and the entry of its head holds one more.
pub fn add(panel: PanelMut, address: u32, time: u32, low: i32, high: i32) -> Result<(), u8> {
    let PanelMut { entries, addresses, ranges: RangesMut { times, lows, highs } } = panel;
    call!(humoraki_add(; ; ; entries, addresses, times, lows, highs; address, time, low, high))
}

/// Fills three slices with the ranges of one head on a panel, and sets their count.
pub fn head_ranges(panel: Panel, address: u32, into: RangesMut, count: &mut usize) -> Result<(), u8> {
    let Panel { entries, addresses, ranges: Ranges { times, lows, highs } } = panel;
    call!(humoraki_head_ranges(
        ; entries, addresses, times, lows, highs; address; into.times, into.lows, into.highs; count
    ))
}

/// What is made from the list of columns.
macro_rules! over_columns {
    ($($column:ident: $number:ty,)*) => {
        /// The columns of a segment's row, to be filled; `segment_columns` says what each is.
        pub struct Columns<'a> {
            $(pub $column: &'a mut [$number],)*
        }

        /// Fills the columns with the segments of a trace, and sets their count.
        pub fn segment(service: Service, ranges: Ranges, columns: Columns, count: &mut usize) -> Result<(), u8> {
            let Service { level, direction, step } = service;
            call!(humoraki_segment(
                level, direction, step; ranges.times, ranges.lows, ranges.highs; ; $(columns.$column),*; count
            ))
        }

        /// Columns of the least length with memory of their own, to be lent as often as needed.
        #[derive(Clone, Debug, PartialEq, Eq)]
        pub struct Table {
            $(pub $column: Vec<$number>,)*
        }

        impl Table {
            /// A table with this number in every entry.
            pub fn holding(number: u8) -> Table {
                Table { $($column: vec![number.into(); SEGMENT_ROOM],)* }
            }

            pub fn columns(&mut self) -> Columns<'_> {
                Columns { $($column: &mut self.$column,)* }
            }
        }
    };
}

segment_columns!(over_columns);
