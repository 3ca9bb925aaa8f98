//! Rising times: close together, one apart, up to the last time, as far apart as they can be, or anything.

use crate::random::Random;
use crate::trace::LAST_TIME;

/// So many times, at least one.
pub fn times(count: usize, random: &mut Random) -> Vec<u32> {
    match random.below(6) {
        0 | 1 => close(count, random),
        2 => one_apart(count, random),
        3 => up_to_the_last(count, random),
        4 => at_both_ends(count, random),
        _ => anything(count, random),
    }
}

fn close(count: usize, random: &mut Random) -> Vec<u32> {
    let widest = random.pick(&[1, 3, 10]);
    let mut time = random.below(4) as u32;
    let mut times = Vec::new();
    for _ in 0..count {
        times.push(time);
        time += 1 + random.below(widest) as u32;
    }
    times
}

fn one_apart(count: usize, random: &mut Random) -> Vec<u32> {
    let largest = LAST_TIME - (count as u32 - 1);
    let middle = random.below(largest as usize) as u32;
    let first = random.pick(&[0, 1, middle, largest]);
    (first..=LAST_TIME).take(count).collect()
}

fn up_to_the_last(count: usize, random: &mut Random) -> Vec<u32> {
    let mut time = LAST_TIME - random.pick(&[0, 0, 1, 5, 40]);
    let mut times = Vec::new();
    for _ in 0..count {
        times.push(time);
        time -= 1 + random.below(4) as u32;
    }
    times.reverse();
    times
}

/// Some from 0 on, the others up to the last time: the largest gap between.
fn at_both_ends(count: usize, random: &mut Random) -> Vec<u32> {
    let early = random.below(count + 1);
    let late = (count - early) as u32;
    let early = 0..early as u32;
    early.chain((0..late).map(|back| LAST_TIME - (late - 1 - back))).collect()
}

fn anything(count: usize, random: &mut Random) -> Vec<u32> {
    let mut times = Vec::new();
    while times.len() < count {
        times.extend((times.len()..count).map(|_| random.next() as u32));
        times.sort();
        times.dedup();
    }
    times
}
