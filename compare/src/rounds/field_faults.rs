//! Every set of faults in one field, so that the order of the refusals is tried, with more damage behind the field; in
//! files of ranges and in files of readings.

use crate::damage::{address_widened, outside};
use crate::desk::Desk;
use crate::difference::Outcome;
use crate::file::{DIRECTION_TAG, STEP_TAG, bytes, bytes_with, field_start, field_with, fields_of_header};
use crate::random::Random;
use crate::readings::Reading;
use crate::segments::{BY_CLIPPING, BY_TRYING, Fitter};
use crate::trace::{MOST_RANGES, Range, Trace};
use crate::traces::addresses::address;
use crate::traces::long::full;
use crate::traces::readings::{self, not_whole, readings};
use crate::traces::services::{no_direction, no_step, small_service};
use crate::traces::small::small_trace;

#[derive(Clone, Copy, PartialEq)]
enum Fault {
    EndsInHeader,
    Tag,
    Length,
    EndsInBody,
    Low,
    High,
    LowAboveHigh,
    TimeNotRising,
    LowNotWhole,
    HighNotWhole,
}

const FAULTS: [Fault; 10] = [
    Fault::EndsInHeader,
    Fault::Tag,
    Fault::Length,
    Fault::EndsInBody,
    Fault::Low,
    Fault::High,
    Fault::LowAboveHigh,
    Fault::TimeNotRising,
    Fault::LowNotWhole,
    Fault::HighNotWhole,
];

/// The faults that only a reading can have.
const OF_READINGS: [Fault; 2] = [Fault::LowNotWhole, Fault::HighNotWhole];

/// What the ranges of a file are.
#[derive(Clone, Copy, PartialEq)]
enum Form {
    Ranges,
    Readings,
}

/// How often each set of faults is tried in a field of a small file.
const ROUNDS: usize = 4;

/// Lengths of the address field; 1 and 2 are good, but one of them is not that of the body.
const ADDRESS_LENGTHS: [u16; 10] = [0, 1, 2, 3, 4, 256, 257, 258, 512, 65_535];

pub fn compare(desk: &mut Desk) -> Outcome {
    let ranges = full(MOST_RANGES + 1);
    for set in 0..1 << FAULTS.len() {
        let faults: Vec<Fault> = (0..FAULTS.len()).filter(|bit| set >> bit & 1 == 1).map(|bit| FAULTS[bit]).collect();
        every_field(desk, &ranges, Form::Readings, &faults)?;
        if !OF_READINGS.iter().any(|fault| faults.contains(fault)) {
            every_field(desk, &ranges, Form::Ranges, &faults)?;
        }
    }
    Ok(())
}

/// The faults in each field of small files, and in the last of one that is too long.
fn every_field(desk: &mut Desk, ranges: &[Range], form: Form, faults: &[Fault]) -> Outcome {
    for _ in 0..ROUNDS {
        let mut trace = small_trace(&mut desk.random);
        trace.ranges.truncate(3);
        for field in 0..fields_of_header(&bytes(&trace)) + trace.ranges.len() {
            one(desk, (&trace, form), (field, faults), BY_TRYING)?;
        }
    }
    let (address, service) = (address(&mut desk.random), small_service(&mut desk.random));
    let too_many = Trace { address, service, ranges: ranges.to_vec() };
    let last = fields_of_header(&bytes(&too_many)) + MOST_RANGES;
    one(desk, (&too_many, form), (last, faults), BY_CLIPPING)
}

/// A trace's file with the faults in one field: 0 is the address, 1 the level, then a direction if it falls, then a step
/// if there is one, then the ranges.
fn one(
    desk: &mut Desk,
    (trace, form): (&Trace, Form),
    (field, faults): (usize, &[Fault]),
    fitter: Fitter,
) -> Outcome {
    let random = &mut desk.random;
    let mut trace = trace.clone();
    let sound = bytes(&trace);
    for fault in faults {
        spoil_value(&mut trace, form, (field, &sound), *fault, random);
    }
    let place = field.checked_sub(fields_of_header(&sound));
    let mut file = if form == Form::Ranges { bytes(&trace) } else { spoilt_readings(&trace, place, faults, random) };
    if field == 0 && faults.contains(&Fault::High) {
        address_widened(&mut file, random);
    }
    let (start, end) = (field_start(&file, field), field_start(&file, field + 1));
    spoil_behind(&mut file, end, random);
    for fault in faults {
        spoil_bytes(&mut file, start, end, *fault, random);
    }
    desk.tally.add("sets of faults in one field", 1);
    desk.file(&file, fitter)
}

/// A low that is wrong stands for an address of 0 and for a wrong level, direction or step too, a high for an address in
/// two bytes that is below 256. The field is one of the sound file. The values of a reading are spoilt as floats, later.
fn spoil_value(trace: &mut Trace, form: Form, (field, sound): (usize, &[u8]), fault: Fault, random: &mut Random) {
    let of_header = fields_of_header(sound);
    let has = |tag| field_with(sound, tag) == Some(field);
    match (field, fault) {
        (0, Fault::Low) => trace.address = 0,
        (1, Fault::Low | Fault::High) => trace.service.level = outside(random),
        (_, Fault::Low | Fault::High) if has(DIRECTION_TAG) => trace.service.direction = no_direction(random),
        (_, Fault::Low | Fault::High) if has(STEP_TAG) => trace.service.step = no_step(random),
        _ if field < of_header => {}
        (_, Fault::Low | Fault::High) if form == Form::Readings => {}
        _ => spoil_range(&mut trace.ranges, field - of_header, fault, random),
    }
}

fn spoil_range(ranges: &mut [Range], place: usize, fault: Fault, random: &mut Random) {
    let before = ranges[place.saturating_sub(1)].time;
    let range = &mut ranges[place];
    match fault {
        Fault::Low => range.low = outside(random),
        Fault::High => range.high = outside(random),
        Fault::LowAboveHigh if range.low < range.high => std::mem::swap(&mut range.low, &mut range.high),
        Fault::LowAboveHigh => range.low = range.high.saturating_add(1),
        Fault::TimeNotRising => range.time = before,
        _ => {}
    }
}

/// The file of readings in the place of the ranges; one may have values that are not whole or outside their span. A spot
/// value has the faults of a low and those of a high.
fn spoilt_readings(trace: &Trace, place: Option<usize>, faults: &[Fault], random: &mut Random) -> Vec<u8> {
    let mut readings = readings(&trace.ranges, random);
    let (of_low, of_high) = ([Fault::LowNotWhole, Fault::Low], [Fault::HighNotWhole, Fault::High]);
    match place.map(|place| &mut readings[place]) {
        Some(Reading::Spot { value, .. }) => {
            spoil_float(value, of_high, faults, random);
            spoil_float(value, of_low, faults, random);
        }
        Some(Reading::Span { low, high, .. }) => {
            spoil_float(low, of_low, faults, random);
            spoil_float(high, of_high, faults, random);
        }
        None => {}
    }
    bytes_with(trace, &readings)
}

/// No float is both outside its span and not whole, so where both are asked for it is not whole.
fn spoil_float(value: &mut u32, [broken, far]: [Fault; 2], faults: &[Fault], random: &mut Random) {
    if faults.contains(&broken) {
        *value = not_whole(random);
    } else if faults.contains(&far) {
        *value = readings::outside(random);
    }
}

fn spoil_bytes(file: &mut Vec<u8>, start: usize, end: usize, fault: Fault, random: &mut Random) {
    let has = |place: usize| file.len() > place;
    match fault {
        Fault::EndsInHeader => file.truncate(start + random.below(3)),
        Fault::Tag if has(start) => file[start] = random.pick(&[0, 3, 4, 5, 6, 7, 255, file[start] + 1]),
        Fault::Length if has(2) && start == 0 && random.one_in(2) => {
            file[1..3].copy_from_slice(&random.pick(&ADDRESS_LENGTHS).to_be_bytes());
        }
        Fault::Length if has(start + 2) => file[start + 1 + random.below(2)] ^= 1 << random.below(8),
        Fault::EndsInBody => file.truncate(start + 3 + random.below(end - start - 3)),
        _ => {}
    }
}

/// Any bytes behind the field: what comes later must not matter.
fn spoil_behind(file: &mut [u8], end: usize, random: &mut Random) {
    let from = end.min(file.len());
    if random.one_in(2) {
        for byte in &mut file[from..] {
            *byte = random.next() as u8;
        }
    }
}
