//! Readings to put into files, and values in binary32 for them.

use crate::random::Random;
use crate::readings::Reading;
use crate::trace::Range;

/// The largest value of the span, the next above it, and the largest that is finite.
pub const MOST: u32 = 0x4980_0000;
pub const ABOVE: u32 = 0x4980_0001;
pub const LARGEST: u32 = 0x7f7f_ffff;

/// Half a 256th, the least value above 0, what is infinite, and two that are not a number.
pub const HALF: u32 = 0x3b00_0000;
const LEAST: u32 = 1;
const INFINITE: u32 = 0x7f80_0000;
pub const NOT_A_NUMBER: u32 = 0x7fc0_0000;
pub const SIGNALLING: u32 = 0x7f80_0001;

/// What makes a value negative; by itself it is minus zero.
pub const MINUS: u32 = 0x8000_0000;

/// The bits of a number of 256ths, or of one near it if binary32 does not hold that.
pub fn bits(number: i32) -> u32 {
    (number as f32 / 256.0).to_bits()
}

/// The readings of some ranges, most points among them as spot values.
pub fn readings(ranges: &[Range], random: &mut Random) -> Vec<Reading> {
    ranges.iter().map(|range| reading(range, random)).collect()
}

fn reading(range: &Range, random: &mut Random) -> Reading {
    let (time, low, high) = (range.time, bits(range.low), bits(range.high));
    if low == high && !random.one_in(4) {
        Reading::Spot { time, value: low }
    } else {
        Reading::Span { time, low, high }
    }
}

/// A value that is turned down with 11.
pub fn not_whole(random: &mut Random) -> u32 {
    let digits = random.next() as u32 >> 9;
    let value = random.pick(&[HALF, LEAST, INFINITE, NOT_A_NUMBER, SIGNALLING, INFINITE + digits, HALF + digits]);
    either_sign(value, random)
}

/// A value that is turned down with 4.
pub fn outside(random: &mut Random) -> u32 {
    let far = random.between(ABOVE as i64, LARGEST as i64) as u32;
    let value = random.pick(&[ABOVE, LARGEST, far]);
    either_sign(value, random)
}

/// A value of any kind.
pub fn any_value(random: &mut Random) -> u32 {
    let number = random.between(-1000, 1000) as i32;
    let junk = random.next() as u32;
    let (broken, far) = (not_whole(random), outside(random));
    random.pick(&[0, MINUS, MOST, MINUS + MOST, bits(number), bits(number), broken, far, junk])
}

fn either_sign(value: u32, random: &mut Random) -> u32 {
    if random.one_in(2) { value } else { MINUS | value }
}
