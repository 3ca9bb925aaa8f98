//! Reports whose intercepts are a power of ten or one less, of every number of digits that one can have, in both signs;
//! so are the levels, but for the largest intercept.

use crate::desk::Desk;
use crate::difference::Outcome;
use crate::file;
use crate::line::Line;
use crate::segments::BY_TRYING;
use crate::trace::{Range, Service, Trace};

/// The largest intercept that is tried is the product of these two, 10 to the 18th.
const LONG_SPAN: u32 = 4_000_000_000;
const LARGE_VALUE: i32 = 250_000_000;

pub fn compare(desk: &mut Desk) -> Outcome {
    for span in powers(9) {
        for value in powers(8) {
            reports(desk, span, value as i32)?;
        }
    }
    reports(desk, LONG_SPAN, LARGE_VALUE)
}

fn powers(largest: u32) -> impl Iterator<Item = u32> {
    (0..=largest).map(|power| 10_u32.pow(power))
}

/// A value that rises, or falls, by 1 in that span of time. From time 0 on, its line has the value times the span for
/// q; from time 1 on, one less. Where the value falls, all of these are below 0.
fn reports(desk: &mut Desk, span: u32, value: i32) -> Outcome {
    for less in [0, 1] {
        for sign in [1, -1] {
            let first = Range { time: less, low: sign * value, high: sign * value };
            let last = Range { time: less + span, low: first.low + sign, high: first.high + sign };
            let line = Line::through(first.time, first.low, last.time, last.low);
            let q = value as i128 * span as i128 - less as i128;
            assert_eq!((line.p, line.q), (sign as i128, sign as i128 * q), "another line");
            let address = (span - less).clamp(1, 10_000);
            let service = Service::rising(sign * (value - less as i32));
            let trace = Trace { address, service, ranges: vec![first, last] };
            desk.file(&file::bytes(&trace), BY_TRYING)?;
            desk.tally.add("reports at powers of ten", 1);
        }
    }
    Ok(())
}
