//! Where the latest run begins: the run from the first range on, of the trace read from its end.

use super::chains::Chains;
use super::ends::Ends;
use super::run::run_from;
use super::trial::MOST_RANGES;
use humoraki::lent::Ranges;

/// The number of the latest run's first range.
pub fn latest_start(ranges: Ranges, chains: &mut Chains) -> u32 {
    let n = ranges.times.len();
    let mut times = [0; MOST_RANGES];
    let mut lows = [0; MOST_RANGES];
    let mut highs = [0; MOST_RANGES];
    for k in 0..n {
        let from = n - 1 - k;
        // What is left of time after the range, so that times rise again.
        times[k] = u32::MAX - ranges.times[from];
        lows[k] = ranges.lows[from];
        highs[k] = ranges.highs[from];
    }
    let backward = Ranges { times: &times[..n], lows: &lows[..n], highs: &highs[..n] };
    n as u32 - run_from(Ends::of(backward), chains, 0, n as u32).end
}
