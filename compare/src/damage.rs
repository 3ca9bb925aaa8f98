//! Damage to a trace's values and to its file's bytes.

// Damages of one kind have one type, though some need no more than a slice.
#![allow(clippy::ptr_arg)]

use crate::file::{
    DIRECTION_TAG, STEP_TAG, bytes, bytes_with, field_start, field_with, fields_of_header, has_readings,
};
use crate::random::Random;
use crate::trace::{LARGEST_VALUE, LEAST_VALUE, Trace};
use crate::traces::readings::{any_value, readings};
use crate::traces::services::{no_direction, no_step};

type ValueDamage = fn(&mut Trace, &mut Random);
type ByteDamage = fn(&mut Vec<u8>, &mut Random);

const OF_VALUES: [ValueDamage; 8] = [
    zero_address,
    level_outside,
    direction_outside,
    step_outside,
    low_outside,
    high_outside,
    low_above_high,
    time_not_rising,
];
const OF_BYTES: [ByteDamage; 18] = [
    address_widened,
    address_length_turned,
    direction_put,
    direction_changed,
    step_put,
    step_changed,
    reading_put,
    reading_changed,
    other_tag,
    other_length,
    field_removed,
    field_doubled,
    byte_changed,
    bit_turned,
    byte_added,
    byte_removed,
    cut_off,
    bytes_behind,
];

/// The trace's file, or one with readings in the place of its ranges, with one to three damages.
pub fn damaged(trace: &Trace, random: &mut Random) -> Vec<u8> {
    let mut trace = trace.clone();
    let damages = 1 + random.below(3);
    let of_values = random.below(damages + 1);
    for _ in 0..of_values {
        random.pick(&OF_VALUES)(&mut trace, random);
    }
    let with_readings = random.one_in(3);
    let mut file = if with_readings { bytes_with(&trace, &readings(&trace.ranges, random)) } else { bytes(&trace) };
    for _ in of_values..damages {
        random.pick(&OF_BYTES)(&mut file, random);
    }
    file
}

/// A number outside the span of lows, highs and levels.
pub fn outside(random: &mut Random) -> i32 {
    let far = random.between(LARGEST_VALUE as i64 + 1, i32::MAX as i64) as i32;
    random.pick(&[LARGEST_VALUE + 1, LEAST_VALUE - 1, i32::MAX, i32::MIN, far, -far])
}

fn zero_address(trace: &mut Trace, _: &mut Random) {
    trace.address = 0;
}

fn level_outside(trace: &mut Trace, random: &mut Random) {
    trace.service.level = outside(random);
}

/// The file has its last eight bits, which may be good ones.
fn direction_outside(trace: &mut Trace, random: &mut Random) {
    trace.service.direction = no_direction(random);
}

fn step_outside(trace: &mut Trace, random: &mut Random) {
    trace.service.step = no_step(random);
}

fn low_outside(trace: &mut Trace, random: &mut Random) {
    if let Some(place) = some_place(trace.ranges.len(), random) {
        trace.ranges[place].low = outside(random);
    }
}

fn high_outside(trace: &mut Trace, random: &mut Random) {
    if let Some(place) = some_place(trace.ranges.len(), random) {
        trace.ranges[place].high = outside(random);
    }
}

fn low_above_high(trace: &mut Trace, random: &mut Random) {
    if let Some(place) = some_place(trace.ranges.len(), random) {
        let range = &mut trace.ranges[place];
        range.low = random.pick(&[range.high.saturating_add(1), LARGEST_VALUE]);
    }
}

fn time_not_rising(trace: &mut Trace, random: &mut Random) {
    if let Some(place) = some_place(trace.ranges.len().saturating_sub(1), random) {
        let before = trace.ranges[place].time;
        trace.ranges[place + 1].time = random.pick(&[before, before.saturating_sub(1), 0]);
    }
}

/// Puts an address below 256 into two bytes.
pub fn address_widened(file: &mut Vec<u8>, random: &mut Random) {
    let end = file.len().min(field_start(file, 1));
    let any = random.next() as u8;
    let low = random.pick(&[0, 1, 7, 255, any]);
    file.splice(..end, [1, 0, 2, 0, low]);
}

/// Says one byte of an address that has two, or two of one that has one; what follows moves, or does not.
fn address_length_turned(file: &mut Vec<u8>, random: &mut Random) {
    if file.len() > 3 {
        let wide = file[2] == 2;
        file[2] = if wide { 1 } else { 2 };
        match (wide, random.one_in(2)) {
            (true, true) => drop(file.remove(3)),
            (false, true) => file.insert(3, random.pick(&[0, 1, 255])),
            _ => {}
        }
    }
}

fn direction_put(file: &mut Vec<u8>, random: &mut Random) {
    let field = direction_field(random);
    put(file, field, random);
}

fn step_put(file: &mut Vec<u8>, random: &mut Random) {
    let field = step_field(random);
    put(file, field, random);
}

/// Puts a field before some field or behind the last, good or not. Where one may stand, it is good or one too many.
fn put(file: &mut Vec<u8>, field: Vec<u8>, random: &mut Random) {
    let any = some_field(file, random).unwrap_or(0);
    let first_range = field_start(file, fields_of_header(file));
    let start = random.pick(&[field_start(file, 2), first_range, any, file.len()]).min(file.len());
    file.splice(start..start, field);
}

fn direction_changed(file: &mut Vec<u8>, random: &mut Random) {
    change(file, DIRECTION_TAG, direction_field(random));
}

fn step_changed(file: &mut Vec<u8>, random: &mut Random) {
    change(file, STEP_TAG, step_field(random));
}

/// Puts a field in the place of one with a tag, if that is there.
fn change(file: &mut Vec<u8>, tag: u8, by: Vec<u8>) {
    if let Some(field) = field_with(file, tag) {
        let end = file.len().min(field_start(file, field + 1));
        file.splice(field_start(file, field)..end, by);
    }
}

/// A field with tag 4: often a good one, else with another value, another length, or a body that is not as long.
fn direction_field(random: &mut Random) -> Vec<u8> {
    let value = random.pick(&[1, 1, 1, 0, 2, 255]);
    let length = random.pick(&[1, 1, 1, 0, 2, 4]);
    let body = random.pick(&[1, length as usize]);
    [vec![4, 0, length], vec![value; body]].concat()
}

/// A field with tag 5, likewise.
fn step_field(random: &mut Random) -> Vec<u8> {
    let far = no_step(random);
    let value: u32 = random.pick(&[2, 60, 28_800, 86_400, 0, 1, 86_401, far]);
    let length = random.pick(&[4, 4, 4, 0, 2, 3, 5]);
    let mut body = value.to_be_bytes().to_vec();
    body.resize(random.pick(&[4, length as usize]), 0);
    [vec![5, 0, length], body].concat()
}

fn reading_put(file: &mut Vec<u8>, random: &mut Random) {
    let field = reading_field(random);
    put(file, field, random);
}

/// A field with tag 6 or 7, likewise.
fn reading_field(random: &mut Random) -> Vec<u8> {
    let (tag, right) = random.pick(&[(6, 8), (7, 12)]);
    let length = random.pick(&[right, right, right, 0, 4, 8, 12, 16]);
    let numbers = [random.below(100) as u32, any_value(random), any_value(random)];
    let mut body = numbers.map(u32::to_be_bytes).concat();
    body.resize(random.pick(&[right as usize, length as usize]), 0);
    [vec![tag, 0, length], body].concat()
}

/// Puts another value into a reading, if there are any.
fn reading_changed(file: &mut Vec<u8>, random: &mut Random) {
    if !has_readings(file) {
        return;
    }
    let value = any_value(random).to_be_bytes();
    let start = some_field(file, random).unwrap_or(0) + random.pick(&[7, 11]);
    if let Some(place) = file.get_mut(start..start + value.len()) {
        place.copy_from_slice(&value);
    }
}

fn other_tag(file: &mut Vec<u8>, random: &mut Random) {
    if let Some(start) = some_field(file, random) {
        file[start] = random.pick(&[0, 1, 2, 3, 4, 5, 6, 7, 8, 255]);
    }
}

fn other_length(file: &mut Vec<u8>, random: &mut Random) {
    if let Some(start) = some_field(file, random).filter(|start| start + 3 <= file.len()) {
        let length: u16 = random.pick(&[0, 1, 2, 3, 4, 5, 7, 8, 9, 11, 12, 13, 256, 257, 258, 512, 3072, 65_535]);
        file[start + 1..start + 3].copy_from_slice(&length.to_be_bytes());
    }
}

fn field_removed(file: &mut Vec<u8>, random: &mut Random) {
    if let Some(start) = some_field(file, random) {
        let end = file.len().min(field_start(file, field_at(file, start) + 1));
        file.drain(start..end);
    }
}

fn field_doubled(file: &mut Vec<u8>, random: &mut Random) {
    if let Some(start) = some_field(file, random) {
        let end = file.len().min(field_start(file, field_at(file, start) + 1));
        let field = file[start..end].to_vec();
        file.splice(end..end, field);
    }
}

fn byte_changed(file: &mut Vec<u8>, random: &mut Random) {
    if let Some(place) = some_place(file.len(), random) {
        file[place] = random.next() as u8;
    }
}

fn bit_turned(file: &mut Vec<u8>, random: &mut Random) {
    if let Some(place) = some_place(file.len(), random) {
        file[place] ^= 1 << random.below(8);
    }
}

fn byte_added(file: &mut Vec<u8>, random: &mut Random) {
    let place = random.below(file.len() + 1);
    file.insert(place, random.next() as u8);
}

fn byte_removed(file: &mut Vec<u8>, random: &mut Random) {
    if let Some(place) = some_place(file.len(), random) {
        file.remove(place);
    }
}

fn cut_off(file: &mut Vec<u8>, random: &mut Random) {
    file.truncate(random.below(file.len() + 1));
}

fn bytes_behind(file: &mut Vec<u8>, random: &mut Random) {
    let behind = 1 + random.below(20);
    let header = random.pick(&[[3, 0, 12], [6, 0, 8], [7, 0, 12]]);
    for place in 0..behind {
        let junk = random.next() as u8;
        file.push(header.get(place).copied().filter(|_| random.one_in(2)).unwrap_or(junk));
    }
}

fn some_place(count: usize, random: &mut Random) -> Option<usize> {
    (count > 0).then(|| random.below(count))
}

/// Where one of the fields that are there begins.
fn some_field(file: &[u8], random: &mut Random) -> Option<usize> {
    let fields = (0..).take_while(|&field| field_start(file, field) < file.len()).count();
    some_place(fields, random).map(|field| field_start(file, field))
}

fn field_at(file: &[u8], start: usize) -> usize {
    (0..).take_while(|&field| field_start(file, field) < start).count()
}
