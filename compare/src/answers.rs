//! The answer that the scope asks of each call, on slices that are long enough: what is to be filled, or the number of
//! the first refusal.

use crate::file;
use crate::line::Line;
use crate::outlook::Outlook;
use crate::panel::Panel;
use crate::report;
use crate::segments::{Fitter, Segment, Stage, segments, stages};
use crate::trace::{Lists, Range, Service, Trace};
use crate::trends::{Finder, Trend};
use crate::trial;
use std::borrow::Borrow;

/// What a range does: whether it begins a segment or joins the last one, and the outlook of the last one then.
#[derive(Clone, PartialEq, Eq, Debug)]
pub struct Effect {
    pub begins: bool,
    pub outlook: Outlook,
}

impl Effect {
    /// The effect of the last range of a stage.
    pub fn at(stage: &Stage, ranges: &[Range], service: Service) -> Effect {
        let segment = stage.segment(ranges, service);
        Effect { begins: segment.count == 1, outlook: segment.outlook }
    }
}

pub fn read(file: &[u8]) -> Result<Trace, u8> {
    file::read(file)
}

pub fn write(address: u32, service: Service, lists: &Lists) -> Result<Vec<u8>, u8> {
    trial::lengths(lists)?;
    trial::address(address)?;
    trial::service(&service)?;
    let ranges = trial::ranges(lists)?;
    Ok(file::bytes(&Trace { address, service, ranges }))
}

pub fn segment(service: Service, lists: &Lists, fitter: Fitter) -> Result<Vec<Segment>, u8> {
    trial::lengths(lists)?;
    trial::service(&service)?;
    let ranges = trial::ranges(lists)?;
    Ok(segments(&ranges, service, fitter))
}

pub fn corners(k: usize, lists: &Lists, fitter: Fitter) -> Result<Vec<Line>, u8> {
    let ranges = prefix(k, lists)?;
    let last = stages(&ranges, fitter).last();
    Ok(last.map_or(Vec::new(), |stage| stage.corners))
}

/// The first k ranges, or the refusal of Corners.
pub fn prefix(k: usize, lists: &Lists) -> Result<Vec<Range>, u8> {
    trial::lengths(lists)?;
    let mut ranges = trial::ranges(lists)?;
    trial::prefix(k, ranges.len())?;
    ranges.truncate(k);
    Ok(ranges)
}

/// The range is added to a copy of the lists, and both are segmented.
pub fn preview(service: Service, lists: &Lists, range: &Range, fitter: Fitter) -> Result<Effect, u8> {
    let after = segment(service, &lists.with(range), fitter)?;
    let before = segment(service, lists, fitter)?;
    let last = after.last().expect("a segment with the range");
    Ok(Effect { begins: after.len() == before.len() + 1, outlook: last.outlook.clone() })
}

pub fn latest(service: Service, lists: &Lists, finder: Finder) -> Result<Trend, u8> {
    trial::lengths(lists)?;
    trial::service(&service)?;
    let ranges = trial::ranges(lists)?;
    Ok(finder(&ranges).trend(&ranges, service))
}

pub fn report(file: &[u8], fitter: Fitter) -> String {
    match file::read(file) {
        Err(number) => report::refused(number),
        Ok(trace) => report::accepted(&trace, &segments(&trace.ranges, trace.service, fitter)),
    }
}

/// The panel with the range on it.
pub fn add(panel: &Panel, address: u32, range: &Range) -> Result<Panel, u8> {
    trial::panel(panel, address)?;
    trial::range(range, panel.ranges_of(address).last())?;
    trial::place(panel, address)?;
    Ok(panel.with(address, range))
}

pub fn head_ranges(panel: &Panel, address: u32) -> Result<Vec<Range>, u8> {
    trial::panel(panel, address)?;
    Ok(panel.ranges_of(address))
}

/// An answer as the calls take it.
pub fn borrowed<T: Borrow<B>, B: ?Sized>(answer: &Result<T, u8>) -> Result<&B, u8> {
    answer.as_ref().map(T::borrow).map_err(|number| *number)
}
