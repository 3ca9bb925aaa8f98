//! Addresses, the ends of their span and of each length often among them.

use crate::random::Random;
use crate::trace::LARGEST_ADDRESS;

/// The least and the largest address of one byte, and those of two.
pub const ENDS: [u32; 4] = [1, 255, 256, LARGEST_ADDRESS];

/// A good address.
pub fn address(random: &mut Random) -> u32 {
    match random.below(4) {
        0 => random.pick(&ENDS),
        1 => random.between(1, 255) as u32,
        _ => random.between(1, LARGEST_ADDRESS as i64) as u32,
    }
}

/// A number that is no address; cut to 16 bits or to 8, some of them would be one.
pub fn outside(random: &mut Random) -> u32 {
    let far = random.between(LARGEST_ADDRESS as i64 + 1, u32::MAX as i64) as u32;
    random.pick(&[0, 65_536, 65_543, 65_791, 65_792, 131_071, 131_072, 1 << 24, u32::MAX, far])
}
