//! A range added to a panel, and the ranges of one head.

use super::trial::value_outside;
use humoraki::lent::{Panel, Ranges, RangesMut};
use humoraki::{Entry, MOST_HEADS, PANEL_ROOM};

const LARGEST_ADDRESS: u32 = 65_535;
const SURE_PLACES: u64 = 32;
const COMMON_PLACES: u64 = 2048;

/// What the trial of a panel finds on the way: the places held in all, the common ones taken, and where the entry is.
pub struct Found {
    pub held: usize,
    common: u64,
    pub entry: usize,
}

/// The trial of a panel and of the address.
pub fn try_panel(panel: Panel, into: &[usize], address: u32) -> Result<Found, u8> {
    let Panel { entries, addresses, ranges: Ranges { times, lows, highs } } = panel;
    let lengths = [addresses.len(), times.len(), lows.len(), highs.len()];
    if lengths.iter().chain(into).any(|&n| n < PANEL_ROOM) {
        return Err(8);
    }
    if entries.is_empty() || MOST_HEADS < entries.len() {
        return Err(14);
    }
    let held: u64 = entries.iter().map(|entry| u64::from(entry.held)).sum();
    let common = entries.iter().map(|entry| u64::from(entry.held).saturating_sub(SURE_PLACES)).sum();
    if COMMON_PLACES < common || !counts_are_right(entries, &addresses[..held as usize]) {
        return Err(14);
    }
    let entry = entries.iter().position(|entry| entry.address == address).ok_or(12)?;
    Ok(Found { held: held as usize, common, entry })
}

/// Whether each entry has an address of its own, inside the span, and holds as many ranges as there are at it.
fn counts_are_right(entries: &[Entry], places: &[u32]) -> bool {
    // Larger than any count, for an address that an entry had already.
    const SEEN: u16 = u16::MAX;
    let mut tally = [0u16; LARGEST_ADDRESS as usize + 1];
    for &address in places {
        if LARGEST_ADDRESS < address {
            return false;
        }
        tally[address as usize] += 1;
    }
    for entry in entries {
        if entry.address == 0 || LARGEST_ADDRESS < entry.address {
            return false;
        }
        let count = &mut tally[entry.address as usize];
        if *count == SEEN || u32::from(*count) != entry.held {
            return false;
        }
        *count = SEEN;
    }
    true
}

/// The trial of a range, for the head that was found.
pub fn try_range(panel: Panel, found: &Found, (time, low, high): (u32, i32, i32)) -> Result<(), u8> {
    let entry = panel.entries[found.entry];
    if value_outside(low) || value_outside(high) {
        return Err(4);
    }
    if high < low {
        return Err(5);
    }
    let last = panel.addresses[..found.held].iter().rposition(|&address| address == entry.address);
    if last.is_some_and(|place| time <= panel.ranges.times[place]) {
        return Err(6);
    }
    if SURE_PLACES <= u64::from(entry.held) && COMMON_PLACES <= found.common {
        return Err(13);
    }
    Ok(())
}

/// Copies the ranges at an address; their number.
pub fn copy_ranges(panel: Panel, held: usize, address: u32, into: RangesMut) -> usize {
    let mut count = 0;
    for place in (0..held).filter(|&place| panel.addresses[place] == address) {
        into.times[count] = panel.ranges.times[place];
        into.lows[count] = panel.ranges.lows[place];
        into.highs[count] = panel.ranges.highs[place];
        count += 1;
    }
    count
}
