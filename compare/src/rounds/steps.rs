//! The field of a step with values of all sizes, with every fault, and in every place of a file, beside a direction too;
//! and numbers of all sizes handed in for one.

use super::header_fields::{
    ADDRESSES, FALLING_FIELD, LEVEL, STEP_FIELD, before_ranges, every_header, every_place, handed_in,
};
use crate::desk::Desk;
use crate::difference::Outcome;
use crate::random::Random;
use crate::trace::{LARGEST_STEP, Service};
use crate::traces::services::{no_step, step};

/// Lengths and bodies of which every combination is tried.
const LENGTHS: [u16; 9] = [0, 1, 2, 3, 4, 5, 260, 1024, 65_535];
const BODIES: [&[u8]; 9] = [
    &[],
    &[60],
    &[0, 60],
    &[0, 0, 60],
    &[0, 0, 0, 60],
    &[0, 0, 0, 1],
    &[0, 1, 81, 128],
    &[0, 1, 81, 129],
    &[0, 0, 0, 0, 60],
];

/// Fields that are put in every place.
const PUT: [&[&[u8]]; 4] = [
    &[STEP_FIELD],
    &[STEP_FIELD, STEP_FIELD],
    &[FALLING_FIELD, STEP_FIELD],
    &[FALLING_FIELD, STEP_FIELD, STEP_FIELD],
];

/// How many numbers more, good ones and others, are tried.
const MORE: usize = 300;

/// What is counted of the values in a file, by the number that they get, and of the numbers handed in.
const VALUES: [&str; 2] = ["steps in a file: 2 to 86,400", "steps in a file: another value"];
const HANDED: [&str; 2] = ["steps handed in", "steps handed in: outside their span"];

pub fn compare(desk: &mut Desk) -> Outcome {
    for name in [VALUES, HANDED].concat() {
        desk.tally.add(name, 0);
    }
    let numbers = numbers(&mut desk.random);
    for number in &numbers {
        in_a_file(desk, *number)?;
        for service in [Service::rising(20), Service::falling(20)] {
            handed_in(desk, service.every(*number), HANDED)?;
        }
    }
    for direction in [&[][..], FALLING_FIELD] {
        let before = [ADDRESSES[0], LEVEL, direction].concat();
        every_header(desk, &before, &LENGTHS, &BODIES, "step fields, whole and cut off")?;
    }
    PUT.into_iter().try_for_each(|put| every_place(desk, put, "steps in every place, whole and cut off"))
}

/// Numbers at the ends of the span, next to powers of two, and others.
fn numbers(random: &mut Random) -> Vec<u32> {
    let powers = (0..u32::BITS).map(|power| 1 << power);
    let near = powers.chain([LARGEST_STEP]).flat_map(|number: u32| [number - 1, number, number + 1]);
    let more = (0..MORE).flat_map(|_| [step(random), no_step(random)]);
    near.chain([u32::MAX]).chain(more).collect()
}

/// With addresses of one byte and of two, on a rising trace and on a falling one.
fn in_a_file(desk: &mut Desk, number: u32) -> Outcome {
    for address in ADDRESSES {
        for direction in [&[][..], FALLING_FIELD] {
            let header = [address, LEVEL, direction, &[5, 0, 4], &number.to_be_bytes()].concat();
            before_ranges(desk, &header, VALUES)?;
        }
    }
    Ok(())
}
