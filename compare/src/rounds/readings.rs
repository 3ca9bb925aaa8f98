//! Readings of a logger: values with every exponent, next to the whole 256ths and to the ends of the span, as a spot
//! value, a low and a high; beside every other tag, with every length and time, cut off at every byte, and as many as
//! there may be; and random ones.

use super::header_fields::{ADDRESSES, FALLING_FIELD, FIRST, LEVEL, STEP_FIELD, every_end, every_header};
use crate::answers::{self, borrowed};
use crate::damage::damaged;
use crate::desk::Desk;
use crate::difference::Outcome;
use crate::file::{bytes_with, reading_field};
use crate::random::Random;
use crate::readings::{Reading, in_256ths};
use crate::room::Room;
use crate::segments::{BY_CLIPPING, BY_TRYING};
use crate::trace::{LARGEST_ADDRESS, LARGEST_STEP, LARGEST_VALUE, MOST_RANGES, Service, Trace};
use crate::traces::readings::{ABOVE, HALF, LARGEST, MINUS, MOST, NOT_A_NUMBER, any_value, bits, readings};
use crate::traces::small::small_trace;
use humoraki::WRITE_ROOM;

/// Exponents at which one digit more or less can make a value whole or not, or take it over the end of the span: there
/// each single digit is tried.
const CLOSE: std::ops::RangeInclusive<u32> = 112..=150;

/// What stands for the other value of a span: good ones, ones that are not whole, ones outside.
const PARTNERS: [u32; 7] = [0, MOST, MINUS | MOST, NOT_A_NUMBER, HALF, ABOVE, MINUS | LARGEST];

/// How many numbers of 256ths with their neighbours, how many other values and how many files are random.
const WHOLE: usize = 400;
const ANY: usize = 1_000;
const FILES: usize = 3_000;

/// Lengths and bodies of which every combination is tried.
const LENGTHS: [u16; 11] = [0, 4, 7, 8, 9, 11, 12, 13, 264, 3_072, 65_535];
const BODIES: [&[u8]; 5] = [
    &[],
    &[0, 0, 0, 5, 63, 128, 0],
    &[0, 0, 0, 5, 63, 128, 0, 0],
    &[0, 0, 0, 5, 63, 128, 0, 0, 64, 0, 0, 0],
    &[0, 0, 0, 5, 127, 192, 0, 0, 64, 0, 0, 0],
];

/// Times of two readings: rising, equal and falling.
const TIMES: [[u32; 2]; 5] = [[10, 20], [10, 10], [20, 10], [0, u32::MAX], [u32::MAX, 0]];

/// What is counted of the values, by the number that they get.
const VALUES: [(u8, &str); 3] = [
    (0, "values of readings: taken"),
    (4, "values of readings: outside their span"),
    (11, "values of readings: not whole, infinite or no number"),
];

pub fn compare(desk: &mut Desk) -> Outcome {
    for (_, name) in VALUES {
        desk.tally.add(name, 0);
    }
    let mut values: Vec<u32> = every_exponent().chain(near_the_ends()).collect();
    values.extend((0..WHOLE).flat_map(|_| near_a_whole(&mut desk.random)));
    values.extend((0..ANY).map(|_| desk.random.next() as u32));
    values.into_iter().try_for_each(|value| every_place(desk, value))?;
    beside_each_other(desk)?;
    lengths(desk)?;
    for count in [MOST_RANGES - 1, MOST_RANGES, MOST_RANGES + 1, MOST_RANGES + 400] {
        as_many(desk, count)?;
    }
    random_files(desk)
}

/// Both signs of each exponent, with no digit, the last, all of them, and, where it may matter, each by itself.
fn every_exponent() -> impl Iterator<Item = u32> {
    let digits = |exponent| {
        let single = if CLOSE.contains(&exponent) { 23 } else { 1 };
        (0..single).map(|digit| 1 << digit).chain([0, (1 << 23) - 1, 1 << 22])
    };
    let sizes = (0..256).flat_map(move |exponent: u32| digits(exponent).map(move |digits| exponent << 23 | digits));
    sizes.flat_map(|size| [size, MINUS | size])
}

/// Whole numbers of 256ths at powers of two and at the ends of the span, with the values next to each.
fn near_the_ends() -> impl Iterator<Item = u32> {
    let powers = (0..=28).map(|power| 1 << power);
    let numbers = powers.flat_map(|power: i32| [power - 1, power, power + 1]).chain([LARGEST_VALUE - 16]);
    numbers.flat_map(|number| [number, -number]).flat_map(neighbours)
}

fn near_a_whole(random: &mut Random) -> [u32; 3] {
    let far = random.pick(&[1_000, 100_000, 20_000_000, LARGEST_VALUE as i64]);
    neighbours(random.between(-far, far) as i32)
}

/// The value of a number of 256ths, the next above it and the next below.
fn neighbours(number: i32) -> [u32; 3] {
    let value = bits(number);
    [value, value.wrapping_add(1), value.wrapping_sub(1)]
}

/// The value by itself, as a low and as a high.
fn every_place(desk: &mut Desk, value: u32) -> Outcome {
    let number = in_256ths(value).err().unwrap_or(0);
    let name = VALUES.iter().find(|(of, _)| *of == number).map_or("", |(_, name)| name);
    desk.tally.add(name, 1);
    let time = 10;
    one(desk, Reading::Spot { time, value })?;
    for partner in PARTNERS {
        one(desk, Reading::Span { time, low: value, high: partner })?;
        one(desk, Reading::Span { time, low: partner, high: value })?;
    }
    Ok(())
}

fn one(desk: &mut Desk, reading: Reading) -> Outcome {
    desk.tally.add("readings of one value or two", 1);
    desk.file(&[ADDRESSES[0], LEVEL, &reading_field(&reading)].concat(), BY_TRYING)
}

/// 1 at a time, and 1 to 2.
fn spot(time: u32) -> Vec<u8> {
    reading_field(&Reading::Spot { time, value: bits(256) })
}

fn span(time: u32) -> Vec<u8> {
    reading_field(&Reading::Span { time, low: bits(256), high: bits(512) })
}

/// A field of each tag that may stand beside a reading, or may not.
fn fields(time: u32) -> [Vec<u8>; 6] {
    let range = [&FIRST[..3], &time.to_be_bytes(), &FIRST[7..]].concat();
    let unknown = [&[8], &range[1..]].concat();
    [spot(time), span(time), range, FALLING_FIELD.to_vec(), STEP_FIELD.to_vec(), unknown]
}

/// Each two fields, at times of each order, cut off at every byte; and with each third one.
fn beside_each_other(desk: &mut Desk) -> Outcome {
    let before = [ADDRESSES[1], LEVEL].concat();
    for [first_time, second_time] in TIMES {
        for first in fields(first_time) {
            for second in fields(second_time) {
                let file = [&before[..], &first, &second].concat();
                every_end(desk, &file, before.len(), "readings beside each tag, whole and cut off")?;
            }
        }
    }
    for [first, second, third] in each_three() {
        desk.tally.add("readings among three fields", 1);
        desk.file(&[&before[..], &first, &second, &third].concat(), BY_TRYING)?;
    }
    Ok(())
}

fn each_three() -> impl Iterator<Item = [Vec<u8>; 3]> {
    let pairs = fields(10).into_iter().flat_map(|first| fields(20).map(|second| [first.clone(), second]));
    pairs.flat_map(|[first, second]| fields(30).map(|third| [first.clone(), second.clone(), third]))
}

/// Every length behind a header, behind one with a direction and a step, and behind a range field of each tag.
fn lengths(desk: &mut Desk) -> Outcome {
    let header = [ADDRESSES[0], LEVEL].concat();
    let whole = [FALLING_FIELD, STEP_FIELD].concat();
    for behind in [&[][..], &whole, &spot(1), &span(1), FIRST] {
        let before = [&header[..], behind].concat();
        every_header(desk, &before, &LENGTHS, &BODIES, "reading fields, whole and cut off")?;
    }
    Ok(())
}

/// About 4,096 spots, spans, and both by turns, whole and cut off near the end of the 4,096th and behind it.
fn as_many(desk: &mut Desk, count: usize) -> Outcome {
    let forms: [fn(u32) -> bool; 3] = [|_| true, |_| false, |time| time % 2 == 0];
    for is_spot in forms {
        let field = |time| if is_spot(time) { spot(time) } else { span(time) };
        let fields = (0..count as u32).map(field).collect::<Vec<_>>().concat();
        let file = [longest_header(), fields].concat();
        desk.tally.add("files of about 4,096 readings", 1);
        desk.file(&file, BY_CLIPPING)?;
        for end in file.len().saturating_sub(35)..file.len() {
            let expected = answers::read(&file[..end]);
            desk.read(&file[..end], borrowed(&expected), &Room::enough())?;
        }
    }
    Ok(())
}

/// That of the largest file. Behind it 4,096 spans take as much as a file can have.
fn longest_header() -> Vec<u8> {
    let service = Service::falling(640).every(LARGEST_STEP);
    let header = bytes_with(&Trace { address: LARGEST_ADDRESS, service, ranges: Vec::new() }, &[]);
    assert_eq!(header.len() + MOST_RANGES * span(0).len(), WRITE_ROOM, "the largest file has another length");
    header
}

/// Readings of small traces, whole, with a value of any kind in one of them, and damaged.
fn random_files(desk: &mut Desk) -> Outcome {
    for _ in 0..FILES {
        let trace = small_trace(&mut desk.random);
        let mut readings = readings(&trace.ranges, &mut desk.random);
        desk.file(&bytes_with(&trace, &readings), BY_TRYING)?;
        if !readings.is_empty() {
            let place = desk.random.below(readings.len());
            readings[place] = with_any_value(readings[place], &mut desk.random);
        }
        desk.file(&bytes_with(&trace, &readings), BY_TRYING)?;
        let file = damaged(&trace, &mut desk.random);
        desk.file(&file, BY_TRYING)?;
        desk.tally.add("random files of readings", 1);
    }
    Ok(())
}

fn with_any_value(reading: Reading, random: &mut Random) -> Reading {
    let any = any_value(random);
    match reading {
        Reading::Spot { time, .. } => Reading::Spot { time, value: any },
        Reading::Span { time, low, .. } if random.one_in(2) => Reading::Span { time, low, high: any },
        Reading::Span { time, high, .. } => Reading::Span { time, low: any, high },
    }
}
