//! The latest trend: the longest run at the end of a trace that some line fits, found in two ways; and a trace cut into
//! such runs from its end.

use crate::clipping;
use crate::line::Line;
use crate::outlook::{Outlook, outlook};
use crate::segments::Stage;
use crate::trace::{Range, Service};
use crate::trying;

/// Gives how many ranges the longest run at the end has, and its corners, none while it is open.
pub type Finder = fn(ranges: &[Range]) -> Run;

pub const BY_TRYING: Finder = longest_tried;
pub const BY_CLIPPING: Finder = longest_clipped;

/// A run at the end of some ranges.
#[derive(Clone, PartialEq, Eq, Debug, Default)]
pub struct Run {
    pub ranges: usize,
    pub corners: Vec<Line>,
}

#[derive(Clone, PartialEq, Eq, Debug)]
pub struct Trend {
    pub ranges: usize,
    pub outlook: Outlook,
    pub corners: Vec<Line>,
}

impl Run {
    /// What is told of the run at the end of these ranges.
    pub fn trend(&self, ranges: &[Range], service: Service) -> Trend {
        let last = ranges.last().map_or(0, |range| range.time);
        Trend { ranges: self.ranges, outlook: outlook(&self.corners, last, service), corners: self.corners.clone() }
    }

    /// The run as a stage after these ranges.
    pub fn stage(&self, ranges: &[Range]) -> Stage {
        let end = ranges.len();
        Stage { begin: end - self.ranges, end, corners: self.corners.clone() }
    }
}

/// The runs from the end of a trace on: each is the longest at the end of what those before it leave.
pub fn cut_from_the_end(ranges: &[Range], finder: Finder) -> Vec<Run> {
    let mut runs = Vec::new();
    let mut left = ranges;
    while !left.is_empty() {
        let run = finder(left);
        left = &left[..left.len() - run.ranges];
        runs.push(run);
    }
    runs
}

/// From the whole on, the first end that some line fits.
fn longest_tried(ranges: &[Range]) -> Run {
    let ends = (0..ranges.len()).map(|begin| &ranges[begin..]);
    let tried = ends.map(|run| Run { ranges: run.len(), corners: trying::corners(run) });
    let mut fitting = tried.filter(|run| run.ranges == 1 || !run.corners.is_empty());
    fitting.next().unwrap_or_default()
}

/// From the last range back, as long as the polygon is not cut away.
fn longest_clipped(ranges: &[Range]) -> Run {
    let [earlier @ .., before, last] = ranges else {
        return Run { ranges: ranges.len(), corners: Vec::new() };
    };
    let mut run = Run { ranges: 2, corners: clipping::corners(&[], &[*before, *last]) };
    for range in earlier.iter().rev() {
        let corners = clipping::cut_by(&run.corners, range);
        if corners.is_empty() {
            break;
        }
        run = Run { ranges: run.ranges + 1, corners };
    }
    run
}
