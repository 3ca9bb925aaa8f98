//! A segment, and its row of numbers into the lent columns; the numbers of an effect and of a trend.

use super::line::Line;
use super::outlook::Outlook;
use humoraki::lent::{Columns, EffectMut, TrendMut};
use humoraki::{BEGINS, JOINS, NONE};

#[derive(Clone, Copy)]
pub struct Segment {
    pub first_time: u32,
    pub last_time: u32,
    pub count: u32,
    pub outlook: Outlook,
}

fn time_number(time: Option<u32>) -> u64 {
    time.map_or(NONE, u64::from)
}

/// The lines and the times; an open outlook has 0 for all of them.
fn numbers(outlook: Outlook) -> (Line, Line, u64, u64) {
    let none = Line { p: 0, q: 0, d: 0 };
    match outlook {
        Outlook::Open => (none, none, 0, 0),
        Outlook::Lines { slow, fast, some, all } => (slow, fast, time_number(some), time_number(all)),
    }
}

/// Sets the numbers of an effect. The last segment is open exactly if the range begins it.
pub fn tell(out: EffectMut, outlook: Outlook) {
    let (slow, fast, some, all) = numbers(outlook);
    *out.kind = if matches!(outlook, Outlook::Open) { BEGINS } else { JOINS };
    (*out.slow_p, *out.slow_q, *out.slow_d) = (slow.p, slow.q, slow.d);
    (*out.fast_p, *out.fast_q, *out.fast_d) = (fast.p, fast.q, fast.d);
    (*out.some, *out.all) = (some, all);
}

/// Sets the numbers of a latest trend.
pub fn tell_trend(out: TrendMut, ranges: usize, outlook: Outlook, corners: usize) {
    let (slow, fast, some, all) = numbers(outlook);
    *out.ranges = ranges;
    (*out.slow_p, *out.slow_q, *out.slow_d) = (slow.p, slow.q, slow.d);
    (*out.fast_p, *out.fast_q, *out.fast_d) = (fast.p, fast.q, fast.d);
    (*out.some, *out.all) = (some, all);
    *out.corners = corners;
}

/// Stores a segment at a place of each column.
pub fn store(out: &mut Columns, at: usize, segment: Segment) {
    let (slow, fast, some, all) = numbers(segment.outlook);
    out.first_times[at] = segment.first_time;
    out.last_times[at] = segment.last_time;
    out.counts[at] = segment.count;
    out.slow_ps[at] = slow.p;
    out.slow_qs[at] = slow.q;
    out.slow_ds[at] = slow.d;
    out.fast_ps[at] = fast.p;
    out.fast_qs[at] = fast.q;
    out.fast_ds[at] = fast.d;
    out.somes[at] = some;
    out.alls[at] = all;
}
