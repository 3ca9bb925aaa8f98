//! Cutting a trace into segments, range by range, over either way of finding corners.

use crate::clipping;
use crate::line::Line;
use crate::outlook::{Outlook, outlook};
use crate::trace::{Range, Service};
use crate::trying;
use std::iter::successors;

/// Gives the corners of the fit of two or more ranges, none if no line fits. The corners before the last of these
/// ranges are at hand.
pub type Fitter = fn(before: &[Line], ranges: &[Range]) -> Vec<Line>;

pub const BY_TRYING: Fitter = |_, ranges| trying::corners(ranges);
pub const BY_CLIPPING: Fitter = clipping::corners;

/// The segment running after the first `end` ranges: it begins at range `begin`, counted from 0, and its fit has these
/// corners, none while it is open.
#[derive(Clone, PartialEq, Eq, Debug, Default)]
pub struct Stage {
    pub begin: usize,
    pub end: usize,
    pub corners: Vec<Line>,
}

#[derive(Clone, PartialEq, Eq, Debug)]
pub struct Segment {
    pub first: u32,
    pub last: u32,
    pub count: usize,
    pub outlook: Outlook,
}

impl Stage {
    /// The stage after one range more: it joins if some line fits the segment with it, else it begins a new segment.
    pub fn next(&self, ranges: &[Range], fitter: Fitter) -> Option<Stage> {
        let Stage { begin, end, corners } = self;
        if *end == ranges.len() {
            return None;
        }
        let run = &ranges[*begin..=*end];
        if run.len() == 1 {
            return Some(Stage { begin: *begin, end: end + 1, corners: Vec::new() });
        }
        let corners = fitter(corners, run);
        let closes = corners.is_empty();
        Some(Stage { begin: if closes { *end } else { *begin }, end: end + 1, corners })
    }

    /// The segment as it is at this stage.
    pub fn segment(&self, ranges: &[Range], service: Service) -> Segment {
        let last = ranges[self.end - 1].time;
        Segment {
            first: ranges[self.begin].time,
            last,
            count: self.end - self.begin,
            outlook: outlook(&self.corners, last, service),
        }
    }

    /// Puts the stage behind the last stages of the segments before, or in the place of an earlier stage of its own.
    pub fn keep(self, last_stages: &mut Vec<Stage>) {
        match last_stages.last_mut() {
            Some(stage) if stage.begin == self.begin => *stage = self,
            _ => last_stages.push(self),
        }
    }
}

/// The stage after each range.
pub fn stages(ranges: &[Range], fitter: Fitter) -> impl Iterator<Item = Stage> + '_ {
    let first = Stage::default().next(ranges, fitter);
    successors(first, move |stage| stage.next(ranges, fitter))
}

pub fn segments(ranges: &[Range], service: Service, fitter: Fitter) -> Vec<Segment> {
    let mut last_stages = Vec::new();
    for stage in stages(ranges, fitter) {
        stage.keep(&mut last_stages);
    }
    last_stages.iter().map(|stage| stage.segment(ranges, service)).collect()
}
