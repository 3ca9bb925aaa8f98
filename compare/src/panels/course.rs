//! A course of adds, known by the ranges that were accepted since the panel started, and by nothing else.

use crate::panel::{COMMON, Panel, SURE};
use crate::trace::Range;
use crate::trial;

pub struct Course {
    heads: Vec<u32>,
    /// each with the address of its head
    accepted: Vec<(u32, Range)>,
}

impl Course {
    pub fn new(heads: &[u32]) -> Course {
        Course { heads: heads.to_vec(), accepted: Vec::new() }
    }

    pub fn heads(&self) -> &[u32] {
        &self.heads
    }

    pub fn accept(&mut self, address: u32, range: &Range) {
        self.accepted.push((address, *range));
    }

    /// The accepted ranges of one head.
    pub fn own(&self, address: u32) -> impl DoubleEndedIterator<Item = &Range> {
        self.accepted.iter().filter(move |(head, _)| *head == address).map(|(_, range)| range)
    }

    fn held(&self, address: u32) -> u64 {
        self.own(address).count() as u64
    }

    /// What Add has to answer now.
    pub fn answer(&self, address: u32, range: &Range) -> Result<(), u8> {
        if !self.heads.contains(&address) {
            return Err(12);
        }
        trial::range(range, self.own(address).next_back())?;
        let above = |head: &u32| self.held(*head).saturating_sub(SURE);
        let crowded = || self.heads.iter().map(above).sum::<u64>() >= COMMON;
        if self.held(address) >= SURE && crowded() { Err(13) } else { Ok(()) }
    }

    /// Whether a panel holds the accepted ranges in their order, and counts them right.
    pub fn is_on(&self, panel: &Panel) -> bool {
        let ranges = panel.lists.ranges();
        let places = panel.addresses.iter().copied().zip(ranges).take(self.accepted.len());
        let heads = panel.entries.iter().map(|entry| entry.address);
        panel.held() == self.accepted.len() as u64
            && places.eq(self.accepted.iter().copied())
            && heads.eq(self.heads.iter().copied())
            && panel.entries.iter().all(|entry| self.held(entry.address) == entry.held as u64)
    }
}
