//! How long the slices are that a call is to fill.

use crate::random::Random;
use std::fmt;

/// How much longer than needed a slice is at most.
const SLACK: usize = 24;

/// Lengths by place among the slices that the call fills; every other slice is long enough.
#[derive(Default)]
pub struct Room {
    lengths: Vec<(usize, usize)>,
}

impl Room {
    pub fn enough() -> Room {
        Room::default()
    }

    pub fn with_length(place: usize, length: usize) -> Room {
        Room { lengths: vec![(place, length)] }
    }

    /// One or two of so many slices too short: empty, short by one, or anything between.
    pub fn too_short(places: usize, least: usize, random: &mut Random) -> Room {
        let shorts = 1 + random.below(2);
        let short = |random: &mut Random| match random.below(3) {
            0 => 0,
            1 => least - 1,
            _ => random.below(least),
        };
        let lengths = (0..shorts).map(|_| (random.below(places), short(random))).collect();
        Room { lengths }
    }

    pub fn length(&self, place: usize, least: usize, random: &mut Random) -> usize {
        match self.lengths.iter().find(|(at, _)| *at == place) {
            Some((_, length)) => *length,
            None => least + random.below(SLACK),
        }
    }
}

impl fmt::Display for Room {
    fn fmt(&self, out: &mut fmt::Formatter) -> fmt::Result {
        if self.lengths.is_empty() {
            return write!(out, "every slice long enough");
        }
        let slice = |(place, length)| format!("slice {} of length {length}", place + 1);
        let slices: Vec<String> = self.lengths.iter().copied().map(slice).collect();
        write!(out, "{}", slices.join(" and "))
    }
}
