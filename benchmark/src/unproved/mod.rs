//! The unproved program: Segment, Corners, Preview, Latest and the calls on a panel by the algorithm of the proved one,
//! in ordinary safe Rust.

mod backward;
mod chains;
mod corner_list;
mod ends;
mod line;
mod outlook;
mod panel;
mod polygon;
mod rows;
mod run;
mod trial;

use chains::Chains;
use ends::{Bar, Ends};
use humoraki::lent::{Columns, EffectMut, Lines, Panel, PanelMut, Ranges, RangesMut, Service, TrendMut};
use outlook::Outlook;
use rows::Segment;

/// The number of segments, or of a refusal.
// A call of its own, as that of the library is, so that nothing of it moves into the loop that measures.
#[inline(never)]
pub fn segment(service: Service, ranges: Ranges, mut out: Columns) -> Result<usize, u8> {
    trial::try_segment(service, ranges, &out)?;
    let mut up = [0; trial::MOST_RANGES];
    let mut down = [0; trial::MOST_RANGES];
    let mut chains = Chains { up: &mut up, down: &mut down };
    let n = ranges.times.len() as u32;
    let mut start = 0;
    let mut count = 0;
    while start < n {
        let segment = segment_from(service, ranges, &mut chains, start);
        rows::store(&mut out, count, segment);
        start += segment.count;
        count += 1;
    }
    Ok(count)
}

/// The segment that begins at range `start`: the run from there on, and its outlook.
fn segment_from(service: Service, ranges: Ranges, chains: &mut Chains, start: u32) -> Segment {
    let reach = run::run_from(Ends::of(ranges), chains, start, ranges.times.len() as u32);
    let last_time = ranges.times[reach.end as usize - 1];
    let outlook = match reach.polygon {
        None => Outlook::Open,
        Some(polygon) => Outlook::of_lines(polygon.slow, polygon.fast, service, last_time),
    };
    Segment { first_time: ranges.times[start as usize], last_time, count: reach.end - start, outlook }
}

/// The number of corners after the first k ranges, 0 where the fit is open, or the number of a refusal.
#[inline(never)]
pub fn corners(k: usize, ranges: Ranges, mut out: Lines) -> Result<usize, u8> {
    trial::try_corners(k, ranges, &out)?;
    let mut up = [0; trial::MOST_RANGES];
    let mut down = [0; trial::MOST_RANGES];
    let mut chains = Chains { up: &mut up, down: &mut down };
    let ends = Ends::of(ranges);
    let polygon = run::last_polygon(ends, &mut chains, k as u32);
    Ok(polygon.map_or(0, |found| corner_list::list_corners(ends, &chains, found, &mut out)))
}

/// The effect of a range behind some ranges, or the number of a refusal.
#[inline(never)]
pub fn preview(service: Service, ranges: Ranges, range: (u32, i32, i32), out: EffectMut) -> Result<(), u8> {
    trial::try_preview(service, ranges, range)?;
    let mut up = [0; trial::MOST_RANGES];
    let mut down = [0; trial::MOST_RANGES];
    let mut chains = Chains { up: &mut up, down: &mut down };
    let (time, low, high) = range;
    let lines = run::last_lines(Ends::of(ranges), &mut chains, ranges.times.len() as u32, Bar::of(time, low, high));
    let outlook = lines.map_or(Outlook::Open, |(slow, fast)| Outlook::of_lines(slow, fast, service, time));
    rows::tell(out, outlook);
    Ok(())
}

/// The number of ranges of the latest run, or of a refusal.
#[inline(never)]
pub fn latest(service: Service, ranges: Ranges, mut out: Lines, trend: TrendMut) -> Result<usize, u8> {
    trial::try_latest(service, ranges, &out)?;
    let mut up = [0; trial::MOST_RANGES];
    let mut down = [0; trial::MOST_RANGES];
    let mut chains = Chains { up: &mut up, down: &mut down };
    let n = ranges.times.len();
    let start = backward::latest_start(ranges, &mut chains);
    let ends = Ends::of(ranges);
    let run = n - start as usize;
    match run::run_from(ends, &mut chains, start, n as u32).polygon {
        None => rows::tell_trend(trend, run, Outlook::Open, 0),
        Some(found) => {
            let outlook = Outlook::of_lines(found.slow, found.fast, service, ranges.times[n - 1]);
            rows::tell_trend(trend, run, outlook, corner_list::list_corners(ends, &chains, found, &mut out));
        }
    }
    Ok(run)
}

/// Puts a range on a panel, or gives the number of a refusal.
#[inline(never)]
pub fn add(panel: PanelMut, address: u32, time: u32, low: i32, high: i32) -> Result<(), u8> {
    let PanelMut { entries, addresses, ranges: RangesMut { times, lows, highs } } = panel;
    let lent = Panel { entries, addresses, ranges: Ranges { times, lows, highs } };
    let found = panel::try_panel(lent, &[], address)?;
    panel::try_range(lent, &found, (time, low, high))?;
    addresses[found.held] = address;
    times[found.held] = time;
    lows[found.held] = low;
    highs[found.held] = high;
    entries[found.entry].held += 1;
    Ok(())
}

/// The ranges of one head, or the number of a refusal.
#[inline(never)]
pub fn head_ranges(panel: Panel, address: u32, into: RangesMut, count: &mut usize) -> Result<(), u8> {
    let found = panel::try_panel(panel, &[into.times.len(), into.lows.len(), into.highs.len()], address)?;
    *count = panel::copy_ranges(panel, found.held, address, into);
    Ok(())
}
