//! Panels whose counts are those of their places, with junk in the places past them.

use super::heads::some_heads;
use crate::panel::{COMMON, PLACES, Panel, SURE};
use crate::random::Random;
use crate::trace::{Lists, Range};
use humoraki::Entry;

/// How much longer than needed a list is at most.
const SLACK: usize = 24;

/// Which part of the common places is taken.
#[derive(Clone, Copy, PartialEq)]
pub enum Fill {
    /// none, and few of the others
    Few,
    /// some, or all but one
    Some,
    /// all
    All,
    /// more than there are
    TooMany,
}

/// A panel of any heads.
pub fn sound_panel(fill: Fill, random: &mut Random) -> Panel {
    let heads = some_heads(random);
    let counts = counts(heads.len(), fill, random);
    let mut order = Vec::new();
    for (head, count) in heads.iter().zip(&counts) {
        order.resize(order.len() + *count as usize, *head);
    }
    shuffle(&mut order, random);
    let mut panel = empty_panel(&heads, order.len(), random);
    let plain = !random.one_in(4);
    for (place, address) in order.into_iter().enumerate() {
        panel.addresses[place] = address;
        if plain {
            put(&mut panel.lists, place, &Range { time: 10 * place as u32, low: 0, high: 4 });
        }
    }
    for (entry, count) in panel.entries.iter_mut().zip(counts) {
        entry.held = count;
    }
    panel
}

/// A panel of these heads that holds nothing yet, with lists of at least so many places. Junk is in all of these, and
/// the address of a head in many, as in a list that was used before.
pub fn empty_panel(heads: &[u32], least: usize, random: &mut Random) -> Panel {
    let places = least.max(PLACES);
    let junk = |random: &mut Random| -> Vec<u64> {
        let count = places + random.below(SLACK);
        (0..count).map(|_| random.next()).collect()
    };
    let addresses = junk(random);
    let used = |bits: u64| if bits >> 63 == 0 { heads[bits as usize % heads.len()] } else { bits as u32 };
    Panel {
        entries: heads.iter().map(|&address| Entry { address, held: 0 }).collect(),
        addresses: addresses.into_iter().map(used).collect(),
        lists: Lists {
            times: junk(random).into_iter().map(|bits| bits as u32).collect(),
            lows: junk(random).into_iter().map(|bits| bits as i32).collect(),
            highs: junk(random).into_iter().map(|bits| bits as i32).collect(),
        },
    }
}

/// How many ranges each of so many heads holds.
fn counts(heads: usize, fill: Fill, random: &mut Random) -> Vec<u32> {
    let most = if fill == Fill::Few { 4 } else { SURE as usize };
    let mut counts: Vec<u32> = (0..heads).map(|_| random.below(most + 1) as u32).collect();
    let (some, excess) = (random.below(COMMON as usize), random.below(500));
    let mut common = match fill {
        Fill::Few => 0,
        Fill::Some => random.pick(&[1, some, COMMON as usize - 1]),
        Fill::All => COMMON as usize,
        Fill::TooMany => COMMON as usize + 1 + random.pick(&[0, excess]),
    };
    while common > 0 {
        let share = 1 + random.below(common);
        let count = &mut counts[random.below(heads)];
        *count = (*count).max(SURE as u32) + share as u32;
        common -= share;
    }
    counts
}

fn shuffle(order: &mut [u32], random: &mut Random) {
    for place in (1..order.len()).rev() {
        order.swap(place, random.below(place + 1));
    }
}

fn put(lists: &mut Lists, place: usize, range: &Range) {
    lists.times[place] = range.time;
    lists.lows[place] = range.low;
    lists.highs[place] = range.high;
}
