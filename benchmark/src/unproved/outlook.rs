//! When a line reaches the service level, and the outlook of a segment's two lines.

use super::line::Line;
use humoraki::FALLING;
use humoraki::lent::Service;

/// Open: one range. Else the slow and the fast line, and the multiples of the step at which some and all lines of the fit
/// have reached the level.
#[derive(Clone, Copy)]
pub enum Outlook {
    Open,
    Lines { slow: Line, fast: Line, some: Option<u32>, all: Option<u32> },
}

/// n / d rounded up, for d above 0.
fn ceil_div(n: i64, d: i64) -> i64 {
    n / d + i64::from(0 < n % d)
}

/// The first multiple of the step, from `from` on, at which the line is at or above the level. Where it is so at
/// the first of these, that is it; a line that is not and does not rise never comes there.
fn reach_time(line: Line, level: i32, step: u32, from: u32) -> Option<u32> {
    let step = i64::from(step);
    let scaled = line.d * i64::from(level);
    let first = ceil_div(i64::from(from), step) * step;
    if scaled <= line.p * first + line.q {
        return u32::try_from(first).ok();
    }
    if line.p <= 0 {
        return None;
    }
    u32::try_from(ceil_div(scaled - line.q, line.p * step) * step).ok()
}

impl Outlook {
    /// On a falling trace the slow line is the first at the level, and each line and the level are taken upside down.
    pub fn of_lines(slow: Line, fast: Line, service: Service, last_time: u32) -> Self {
        let slow = slow.reduced();
        let fast = fast.reduced();
        let (first, last, level) = if service.direction == FALLING {
            (slow.negated(), fast.negated(), -service.level)
        } else {
            (fast, slow, service.level)
        };
        let [some, all] = [first, last].map(|line| reach_time(line, level, service.step, last_time));
        Outlook::Lines { slow, fast, some, all }
    }
}
