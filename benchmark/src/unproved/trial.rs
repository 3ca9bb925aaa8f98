//! Which number of the refusals turns the lists and slices of a call down.

use humoraki::lent::{Columns, Lines, Ranges, Service};
use humoraki::{CORNER_ROOM, FALLING, LEAST_STEP, MOST_STEP, SEGMENT_ROOM};

pub const MOST_RANGES: usize = 4096;

const MOST_VALUE: i32 = 268_435_456;

pub fn value_outside(value: i32) -> bool {
    !(-MOST_VALUE..=MOST_VALUE).contains(&value)
}

fn service_outside(service: Service) -> bool {
    let bad_step = !(LEAST_STEP..=MOST_STEP).contains(&service.step);
    value_outside(service.level) || FALLING < service.direction || bad_step
}

/// One range: the least time of the next, or the number that turns it down.
fn try_range(least: u64, (time, low, high): (u32, i32, i32)) -> Result<u64, u8> {
    if value_outside(low) || value_outside(high) {
        return Err(4);
    }
    if high < low {
        return Err(5);
    }
    if u64::from(time) < least {
        return Err(6);
    }
    Ok(u64::from(time) + 1)
}

/// The ranges one after the other, likewise.
fn try_ranges(ranges: Ranges) -> Result<u64, u8> {
    let mut least = 0;
    let values = ranges.lows.iter().zip(ranges.highs);
    for (&time, (&low, &high)) in ranges.times.iter().zip(values) {
        least = try_range(least, (time, low, high))?;
    }
    Ok(least)
}

/// The lists, which may have so many ranges: the least time of the next, or the number that turns them down.
fn try_lists(short: bool, most: usize, outside: bool, ranges: Ranges) -> Result<u64, u8> {
    let n = ranges.times.len();
    if short {
        Err(8)
    } else if n != ranges.lows.len() || n != ranges.highs.len() {
        Err(10)
    } else if most < n {
        Err(7)
    } else if outside {
        Err(4)
    } else {
        try_ranges(ranges)
    }
}

macro_rules! try_columns {
    ($($column:ident: $number:ty,)*) => {
        fn is_short(columns: &Columns) -> bool {
            [$(columns.$column.len()),*].iter().any(|&n| n < SEGMENT_ROOM)
        }
    };
}

humoraki::segment_columns!(try_columns);

pub fn try_segment(service: Service, ranges: Ranges, out: &Columns) -> Result<(), u8> {
    try_lists(is_short(out), MOST_RANGES, service_outside(service), ranges).map(|_| ())
}

/// A range more must have a place.
pub fn try_preview(service: Service, ranges: Ranges, range: (u32, i32, i32)) -> Result<(), u8> {
    let least = try_lists(false, MOST_RANGES - 1, service_outside(service), ranges)?;
    try_range(least, range).map(|_| ())
}

fn lacks_room(out: &Lines) -> bool {
    [out.ps.len(), out.qs.len(), out.ds.len()].iter().any(|&n| n < CORNER_ROOM)
}

pub fn try_latest(service: Service, ranges: Ranges, out: &Lines) -> Result<(), u8> {
    try_lists(lacks_room(out), MOST_RANGES, service_outside(service), ranges).map(|_| ())
}

pub fn try_corners(k: usize, ranges: Ranges, out: &Lines) -> Result<(), u8> {
    try_lists(lacks_room(out), MOST_RANGES, false, ranges)?;
    if k == 0 || ranges.times.len() < k {
        return Err(9);
    }
    Ok(())
}
