//! A panel with memory of its own.

#[cfg(test)]
mod tests;

use super::lent::{self, PanelMut, Ranges, RangesMut};
use super::{Direction, Entry, PANEL_ROOM, Trace};

/// The ranges of up to 64 heads, 4,096 in all: one entry for each head, and four lists in whose first places the ranges
/// stand in the order in which they were accepted.
#[derive(Clone, Debug, PartialEq, Eq)]
pub struct Panel {
    entries: Vec<Entry>,
    addresses: Vec<u32>,
    times: Vec<u32>,
    lows: Vec<i32>,
    highs: Vec<i32>,
}

impl Panel {
    /// A panel with these heads and no range yet. Heads that make no panel are refused by every call on it, with 14:
    /// none, more than 64, two of one address, an address outside 1 to 65,535.
    pub fn new(heads: &[u32]) -> Panel {
        Panel {
            entries: heads.iter().map(|&address| Entry { address, held: 0 }).collect(),
            addresses: vec![0; PANEL_ROOM],
            times: vec![0; PANEL_ROOM],
            lows: vec![0; PANEL_ROOM],
            highs: vec![0; PANEL_ROOM],
        }
    }

    /// The heads, and how many ranges each holds.
    pub fn entries(&self) -> &[Entry] {
        &self.entries
    }

    /// Adds a range of one head. After a refusal the panel is as it was.
    pub fn add(&mut self, address: u32, time: u32, low: i32, high: i32) -> Result<(), u8> {
        let ranges = RangesMut { times: &mut self.times, lows: &mut self.lows, highs: &mut self.highs };
        let panel = PanelMut { entries: &mut self.entries, addresses: &mut self.addresses, ranges };
        lent::add(panel, address, time, low, high)
    }

    /// The ranges of one head as a trace. A panel knows no level, no direction and no step, so these are handed in.
    pub fn trace(&self, address: u32, level: i32, direction: Direction, step: u32) -> Result<Trace, u8> {
        let ranges = Ranges { times: &self.times, lows: &self.lows, highs: &self.highs };
        let panel = lent::Panel { entries: &self.entries, addresses: &self.addresses, ranges };
        let mut times = vec![0; PANEL_ROOM];
        let mut lows = vec![0; PANEL_ROOM];
        let mut highs = vec![0; PANEL_ROOM];
        let mut count = 0;
        let into = RangesMut { times: &mut times, lows: &mut lows, highs: &mut highs };
        lent::head_ranges(panel, address, into, &mut count)?;
        times.truncate(count);
        lows.truncate(count);
        highs.truncate(count);
        Ok(Trace { address, level, direction, step, times, lows, highs })
    }
}
