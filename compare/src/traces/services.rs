//! Levels, directions and steps to hand in with lists.

use super::levels::level;
use crate::random::Random;
use crate::segments::Stage;
use crate::trace::{EVERY_SECOND, FALLING, LARGEST_STEP, RISING, Range, Service};

/// Steps that are tried more often than others.
pub const STEPS: [u32; 5] = [2, 3, 7, 3_600, LARGEST_STEP];

/// Either direction.
pub fn direction(random: &mut Random) -> u32 {
    random.pick(&[RISING, FALLING])
}

/// A number that is no direction; cut to 16 bits or to 8, some of them would be one.
pub fn no_direction(random: &mut Random) -> u32 {
    let far = random.between(FALLING as i64 + 1, u32::MAX as i64) as u32;
    random.pick(&[2, 3, 255, 256, 257, 65_536, 65_537, 1 << 24, 1 << 31, u32::MAX, far])
}

/// A step, often that of a file that says none.
pub fn step(random: &mut Random) -> u32 {
    match random.below(8) {
        0..=2 => EVERY_SECOND,
        3..=6 => random.pick(&STEPS),
        _ => random.between(EVERY_SECOND as i64, LARGEST_STEP as i64) as u32,
    }
}

/// A number that is no step; cut to 24 bits or to fewer, some of them would be one.
pub fn no_step(random: &mut Random) -> u32 {
    let far = random.between(LARGEST_STEP as i64 + 1, u32::MAX as i64) as u32;
    random.pick(&[0, 0, LARGEST_STEP + 1, (1 << 17) + 60, 1 << 24, (1 << 24) + 1, 1 << 31, u32::MAX, far])
}

/// A level where something happens, either direction, and a step.
pub fn service(ranges: &[Range], stages: &[Stage], random: &mut Random) -> Service {
    let step = step(random);
    Service { level: level(ranges, stages, step, random), direction: direction(random), step }
}

/// A level near 0, either direction, and a step.
pub fn small_service(random: &mut Random) -> Service {
    Service { level: random.between(-50, 50) as i32, direction: direction(random), step: step(random) }
}
