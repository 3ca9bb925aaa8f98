//! A panel as the scope has it, held to its words place by place.

use crate::trace::{LARGEST_ADDRESS, Lists, Range};
use humoraki::{Entry, PANEL_ROOM};

pub const MOST_HEADS: usize = 64;

/// All places, those of which each head is sure, and the others.
pub const PLACES: usize = 4096;
pub const SURE: u64 = 32;
pub const COMMON: u64 = 2048;

const _: () = assert!(PANEL_ROOM == PLACES && humoraki::MOST_HEADS == MOST_HEADS);

/// What a caller may lend as a panel: entries and four lists, of any lengths, with any numbers.
#[derive(Clone, PartialEq, Eq, Debug)]
pub struct Panel {
    pub entries: Vec<Entry>,
    pub addresses: Vec<u32>,
    pub lists: Lists,
}

impl Panel {
    /// The places held in all.
    pub fn held(&self) -> u64 {
        self.entries.iter().map(|entry| entry.held as u64).sum()
    }

    pub fn common_taken(&self) -> u64 {
        self.entries.iter().map(|entry| (entry.held as u64).saturating_sub(SURE)).sum()
    }

    pub fn has_short_list(&self) -> bool {
        let Lists { times, lows, highs } = &self.lists;
        [self.addresses.len(), times.len(), lows.len(), highs.len()].iter().any(|length| *length < PLACES)
    }

    /// Whether it is a panel. The places that can be held are all in the lists, as the common ones are tried first.
    pub fn is_one(&self) -> bool {
        let outside = |entry: &Entry| entry.address == 0 || entry.address > LARGEST_ADDRESS;
        let alone = |entry: &Entry| self.entries.iter().filter(|other| other.address == entry.address).count() == 1;
        let counted = |entry: &Entry| self.places_of(entry.address).count() == entry.held as usize;
        (1..=MOST_HEADS).contains(&self.entries.len())
            && !self.entries.iter().any(outside)
            && self.entries.iter().all(alone)
            && self.common_taken() <= COMMON
            && self.entries.iter().all(counted)
    }

    pub fn entry(&self, address: u32) -> Option<&Entry> {
        self.entries.iter().find(|entry| entry.address == address)
    }

    /// The ranges of one head, in order of acceptance.
    pub fn ranges_of(&self, address: u32) -> Vec<Range> {
        let Lists { times, lows, highs } = &self.lists;
        let range = |place: usize| Range { time: times[place], low: lows[place], high: highs[place] };
        self.places_of(address).map(range).collect()
    }

    /// The panel with one range more of a head that it has.
    pub fn with(&self, address: u32, range: &Range) -> Panel {
        let mut panel = self.clone();
        let next = self.held() as usize;
        panel.addresses[next] = address;
        panel.lists.times[next] = range.time;
        panel.lists.lows[next] = range.low;
        panel.lists.highs[next] = range.high;
        let entry = panel.entries.iter_mut().find(|entry| entry.address == address);
        entry.expect("a head of the panel").held += 1;
        panel
    }

    /// Entries and the addresses in the places held, in words.
    pub fn in_words(&self) -> String {
        let shown = self.addresses.len().min(self.held().min(PLACES as u64) as usize);
        let entry = |entry: &Entry| format!(" {}:{}", entry.address, entry.held);
        let entries: String = self.entries.iter().map(entry).collect();
        let addresses: String = self.addresses[..shown].iter().map(|address| format!(" {address}")).collect();
        format!("entries (address:held){entries}\naddresses{addresses}")
    }

    /// The places with an address among those held.
    fn places_of(&self, address: u32) -> impl Iterator<Item = usize> + '_ {
        let held = &self.addresses[..self.held() as usize];
        held.iter().enumerate().filter(move |(_, at)| **at == address).map(|(place, _)| place)
    }
}
