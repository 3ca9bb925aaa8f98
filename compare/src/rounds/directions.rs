//! The field of a direction with every value, with every fault, and in every place of a file; and numbers of all sizes
//! handed in for one.

use super::header_fields::{ADDRESSES, FALLING_FIELD, LEVEL, before_ranges, every_header, every_place, handed_in};
use crate::desk::Desk;
use crate::difference::Outcome;
use crate::trace::Service;
use crate::traces::services::no_direction;

/// Lengths and bodies of which every combination is tried.
const LENGTHS: [u16; 9] = [0, 1, 2, 3, 4, 256, 257, 512, 65_535];
const BODIES: [&[u8]; 10] = [&[], &[0], &[1], &[2], &[255], &[0, 0], &[0, 1], &[1, 0], &[1, 1], &[0, 0, 0, 1]];

/// How many numbers that are no direction are handed in.
const OUTSIDE: usize = 200;

/// What is counted of the values in a file, by the number that they get, and of the numbers handed in.
const VALUES: [&str; 2] = ["directions in a file: falling", "directions in a file: another value"];
const HANDED: [&str; 2] = ["directions handed in", "directions handed in: outside their span"];

pub fn compare(desk: &mut Desk) -> Outcome {
    for name in [VALUES, HANDED].concat() {
        desk.tally.add(name, 0);
    }
    for address in ADDRESSES {
        for value in 0..=u8::MAX {
            before_ranges(desk, &[address, LEVEL, &[4, 0, 1, value]].concat(), VALUES)?;
        }
    }
    let before = [ADDRESSES[0], LEVEL].concat();
    every_header(desk, &before, &LENGTHS, &BODIES, "direction fields, whole and cut off")?;
    for put in [&[FALLING_FIELD][..], &[FALLING_FIELD, FALLING_FIELD]] {
        every_place(desk, put, "directions in every place, whole and cut off")?;
    }
    let far: Vec<u32> = (0..OUTSIDE).map(|_| no_direction(&mut desk.random)).collect();
    for direction in [0, 1, 2, 255, 256, 257, u32::MAX].into_iter().chain(far) {
        handed_in(desk, Service::rising(20).toward(direction), HANDED)?;
    }
    Ok(())
}
