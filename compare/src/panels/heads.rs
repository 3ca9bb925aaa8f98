//! The heads of a panel by their addresses, and addresses that no head has.

use crate::panel::MOST_HEADS;
use crate::random::Random;
use crate::traces::addresses::{address, outside};

/// One head, a few, or as many as there may be.
pub fn some_heads(random: &mut Random) -> Vec<u32> {
    let any = 1 + random.below(MOST_HEADS);
    let count = random.pick(&[1, 2, 3, 5, any, MOST_HEADS]);
    heads(count, random)
}

/// So many heads, in any order.
pub fn heads(count: usize, random: &mut Random) -> Vec<u32> {
    let mut heads = Vec::new();
    while heads.len() < count {
        heads.push(another(&heads, random));
    }
    heads
}

/// A good address that none of these heads has.
pub fn another(heads: &[u32], random: &mut Random) -> u32 {
    loop {
        let address = address(random);
        if !heads.contains(&address) {
            return address;
        }
    }
}

/// An address that none of these heads has: a good one, one outside the span, or one that cut to 16 bits would be a
/// head's.
pub fn unknown(heads: &[u32], random: &mut Random) -> u32 {
    match random.below(3) {
        0 => another(heads, random),
        1 if !heads.is_empty() => random.pick(heads) | 1 << (16 + random.below(16)),
        _ => outside(random),
    }
}
