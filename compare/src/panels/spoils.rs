//! What spoils a panel.

use super::heads::{another, unknown};
use crate::panel::{MOST_HEADS, PLACES, Panel};
use crate::random::Random;
use crate::traces::addresses::outside;
use humoraki::Entry;

pub type Spoil = fn(&mut Panel, &mut Random);

/// The spoils by name. Some of them leave some panels in order.
pub const SPOILS: [(&str, Spoil); 12] = [
    ("spoiled panels: no entry", no_entry),
    ("spoiled panels: too many entries", many_entries),
    ("spoiled panels: two entries of one address", address_twice),
    ("spoiled panels: two entries of one address, one without ranges", entry_again),
    ("spoiled panels: an address outside its span", address_outside),
    ("spoiled panels: an address outside its span, without ranges", entry_outside),
    ("spoiled panels: a count off by one", count_off),
    ("spoiled panels: one head's count to another", count_moved),
    ("spoiled panels: a count near its end", count_near_end),
    ("spoiled panels: counts that add up past 32 bits", counts_past_the_end),
    ("spoiled panels: a place of no head", stranger),
    ("spoiled panels: a place of another head", place_moved),
];

fn no_entry(panel: &mut Panel, _: &mut Random) {
    panel.entries.clear();
}

/// More entries than there may be, all else in order.
fn many_entries(panel: &mut Panel, random: &mut Random) {
    let count = MOST_HEADS + random.pick(&[1, 1, 2, 40, 400]);
    while panel.entries.len() < count {
        let address = another(&addresses(panel), random);
        panel.entries.push(Entry { address, held: 0 });
    }
}

fn address_twice(panel: &mut Panel, random: &mut Random) {
    let [one, other] = two_heads(panel, random);
    panel.entries[one].address = panel.entries[other].address;
}

/// Where the first has no ranges either, both counts are right.
fn entry_again(panel: &mut Panel, random: &mut Random) {
    let address = random.pick(&addresses(panel));
    add_entry(panel, address, random);
}

/// The places of the head have it too, at times, so that its count is right.
fn address_outside(panel: &mut Panel, random: &mut Random) {
    let (address, other) = (random.pick(&addresses(panel)), outside(random));
    let rename = |at: &mut u32| *at = if *at == address { other } else { *at };
    panel.entries.iter_mut().for_each(|entry| rename(&mut entry.address));
    if !random.one_in(3) {
        panel.addresses.iter_mut().for_each(rename);
    }
}

fn entry_outside(panel: &mut Panel, random: &mut Random) {
    let address = outside(random);
    add_entry(panel, address, random);
}

fn count_off(panel: &mut Panel, random: &mut Random) {
    let [head, _] = two_heads(panel, random);
    let held = &mut panel.entries[head].held;
    *held = if random.one_in(2) { held.wrapping_add(1) } else { held.wrapping_sub(1) };
}

/// The counts add up to the same.
fn count_moved(panel: &mut Panel, random: &mut Random) {
    let [from, to] = two_heads(panel, random);
    let share = random.below(panel.entries[from].held as usize + 1) as u32;
    panel.entries[from].held -= share;
    panel.entries[to].held = panel.entries[to].held.wrapping_add(share);
}

fn count_near_end(panel: &mut Panel, random: &mut Random) {
    let [head, _] = two_heads(panel, random);
    let near = u32::MAX - random.below(100) as u32;
    panel.entries[head].held = random.pick(&[u32::MAX, near, 1 << 31, 1 << 16, PLACES as u32, 2081]);
}

/// Every count at its end, or counts that in 32 bits would add up to what they did before.
fn counts_past_the_end(panel: &mut Panel, random: &mut Random) {
    let [one, other] = two_heads(panel, random);
    if random.one_in(2) {
        panel.entries.iter_mut().for_each(|entry| entry.held = u32::MAX);
    } else {
        let any = 1 + random.below(1 << 31) as u32;
        let share = random.pick(&[1 << 31, 1 << 16, any]);
        panel.entries[one].held = panel.entries[one].held.wrapping_add(share);
        panel.entries[other].held = panel.entries[other].held.wrapping_sub(share);
    }
}

fn stranger(panel: &mut Panel, random: &mut Random) {
    if let Some(place) = held_place(panel, random) {
        panel.addresses[place] = unknown(&addresses(panel), random);
    }
}

fn place_moved(panel: &mut Panel, random: &mut Random) {
    if let Some(place) = held_place(panel, random) {
        panel.addresses[place] = random.pick(&addresses(panel));
    }
}

/// One entry more without ranges, or in the place of another where there are as many as there may be.
fn add_entry(panel: &mut Panel, address: u32, random: &mut Random) {
    let place = random.below(panel.entries.len());
    let entry = Entry { address, held: 0 };
    if panel.entries.len() < MOST_HEADS {
        panel.entries.insert(place, entry);
    } else {
        panel.entries[place] = entry;
    }
}

fn addresses(panel: &Panel) -> Vec<u32> {
    panel.entries.iter().map(|entry| entry.address).collect()
}

/// The places of two entries, of one where there is no second.
fn two_heads(panel: &Panel, random: &mut Random) -> [usize; 2] {
    let count = panel.entries.len();
    let one = random.below(count);
    [one, (one + 1 + random.below(count.max(2) - 1)) % count]
}

/// A place held that the list of addresses has.
fn held_place(panel: &Panel, random: &mut Random) -> Option<usize> {
    let held = panel.addresses.len().min(panel.held() as usize);
    (held > 0).then(|| random.below(held))
}
