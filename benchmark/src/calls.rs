//! The calls on traces that are measured, of either program.

use crate::buffers::Buffers;
use crate::unproved;
use humoraki::Trace;
use humoraki::lent::{self, Ranges};

#[derive(Clone, Copy, PartialEq)]
pub enum Call {
    Segment,
    /// Corners after all ranges.
    Corners,
    /// Preview of the last range behind all others.
    Preview,
    Latest,
}

/// The ranges but the last, and the last: all that Corners is handed.
fn last_apart(ranges: Ranges) -> (Ranges, (u32, i32, i32)) {
    let last = ranges.times.len() - 1;
    let Ranges { times, lows, highs } = ranges;
    let others = Ranges { times: &times[..last], lows: &lows[..last], highs: &highs[..last] };
    (others, (times[last], lows[last], highs[last]))
}

impl Call {
    /// The call of the static library: the count that it sets, of ranges where it is Latest, 0 for Preview, or the number
    /// of a refusal.
    pub fn proved(self, trace: &Trace, out: &mut Buffers) -> Result<usize, u8> {
        let ranges = trace.ranges();
        let mut count = 0;
        match self {
            Call::Segment => lent::segment(trace.service(), ranges, out.segments.columns(), &mut count)?,
            Call::Corners => lent::corners(ranges.times.len(), ranges, out.corners(), &mut count)?,
            Call::Preview => {
                let (others, (time, low, high)) = last_apart(ranges);
                lent::preview(trace.service(), others, time, low, high, out.effect())?;
            }
            Call::Latest => {
                let (corners, trend) = out.trend();
                lent::latest(trace.service(), ranges, corners, trend)?;
                count = out.ranges;
            }
        }
        Ok(count)
    }

    pub fn unproved(self, trace: &Trace, out: &mut Buffers) -> Result<usize, u8> {
        let ranges = trace.ranges();
        match self {
            Call::Segment => unproved::segment(trace.service(), ranges, out.segments.columns()),
            Call::Corners => unproved::corners(ranges.times.len(), ranges, out.corners()),
            Call::Preview => {
                let (others, last) = last_apart(ranges);
                unproved::preview(trace.service(), others, last, out.effect())?;
                Ok(0)
            }
            Call::Latest => {
                let (corners, trend) = out.trend();
                unproved::latest(trace.service(), ranges, corners, trend)
            }
        }
    }
}
