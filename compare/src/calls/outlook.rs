//! The eight numbers of an outlook that Preview and Latest are lent to set.

use super::segment::outlook_numbers;
use crate::lent::{Lent, Use, Watched};
use crate::outlook::Outlook;
use crate::random::Random;

/// The numbers of the slow and the fast line, and the two times.
const LINES: [&str; 6] = ["slow_p", "slow_q", "slow_d", "fast_p", "fast_q", "fast_d"];
const TIMES: [&str; 2] = ["some", "all"];

pub struct LentOutlook {
    lines: [Lent<i64>; 6],
    times: [Lent<u64>; 2],
}

impl LentOutlook {
    pub fn new() -> LentOutlook {
        LentOutlook {
            lines: LINES.map(|name| Lent::new(name, Use::Set)),
            times: TIMES.map(|name| Lent::new(name, Use::Set)),
        }
    }

    pub fn lend(&mut self, random: &mut Random) {
        self.lent().into_iter().for_each(|number| number.lend(1, 1, random));
    }

    /// The numbers of the lines, and the times.
    pub fn numbers(&mut self) -> ([&mut i64; 6], [&mut u64; 2]) {
        (self.lines.each_mut().map(Lent::entry_mut), self.times.each_mut().map(Lent::entry_mut))
    }

    pub fn expect(&mut self, outlook: &Outlook) {
        let (lines, times) = outlook_numbers(outlook);
        self.lines.iter_mut().zip(lines).for_each(|(lent, number)| lent.expect(&[number]));
        self.times.iter_mut().zip(times).for_each(|(lent, time)| lent.expect(&[time]));
    }

    pub fn lent(&mut self) -> Vec<&mut dyn Watched> {
        let lines = self.lines.iter_mut().map(|number| number as &mut dyn Watched);
        let times = self.times.iter_mut().map(|time| time as &mut dyn Watched);
        lines.chain(times).collect()
    }
}
