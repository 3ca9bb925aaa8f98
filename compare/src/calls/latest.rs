//! Latest, compared.

use super::lines::LentLines;
use super::lists::LentLists;
use super::outlook::LentOutlook;
use super::{Returned, handed, number, unless_short};
use crate::lent::{Lent, Use, Watched};
use crate::random::Random;
use crate::room::Room;
use crate::tally::Call;
use crate::trace::{Lists, Service};
use crate::trends::Trend;
use humoraki::lent::{self, TrendMut};

pub struct LatestCall {
    lists: LentLists,
    lines: LentLines,
    ranges: Lent<usize>,
    outlook: LentOutlook,
    corners: Lent<usize>,
}

impl LatestCall {
    pub fn new() -> LatestCall {
        LatestCall {
            lists: LentLists::new(),
            lines: LentLines::new(),
            ranges: Lent::new("ranges", Use::Set),
            outlook: LentOutlook::new(),
            corners: Lent::new("corners", Use::Set),
        }
    }

    /// Calls Latest; `expected` is the answer on slices that are long enough.
    pub fn call(
        &mut self,
        (service, lists): (Service, &Lists),
        expected: Result<&Trend, u8>,
        room: &Room,
        random: &mut Random,
    ) -> Returned<'_> {
        let run = expected.map_or(0, |trend| trend.ranges);
        self.lists.lend(lists, random);
        let short = self.lines.lend(run, room, random);
        self.ranges.lend(1, 1, random);
        self.outlook.lend(random);
        self.corners.lend(1, 1, random);
        let expected = unless_short(short, expected);
        let given = self.latest(service);
        if let Ok(trend) = expected {
            self.expect(trend);
        }
        Returned { call: Call::Latest, expected: number(&expected), given: number(&given), lent: self.lent() }
    }

    /// All that is lent to Latest.
    pub fn lent(&mut self) -> Vec<&mut dyn Watched> {
        let LatestCall { lists, lines, ranges, outlook, corners } = self;
        let mut lent: Vec<&mut dyn Watched> = lists.lent().into_iter().chain(lines.lent()).collect();
        lent.push(ranges);
        lent.extend(outlook.lent());
        lent.push(corners);
        lent
    }

    /// How many ranges an accepted call said that the run has.
    pub fn told(&self) -> usize {
        self.ranges.entries()[0]
    }

    fn latest(&mut self, service: Service) -> Result<(), u8> {
        let ([slow_p, slow_q, slow_d, fast_p, fast_q, fast_d], [some, all]) = self.outlook.numbers();
        let (ranges, corners) = (self.ranges.entry_mut(), self.corners.entry_mut());
        let trend = TrendMut { ranges, slow_p, slow_q, slow_d, fast_p, fast_q, fast_d, some, all, corners };
        lent::latest(handed(service), self.lists.ranges(), self.lines.lines(), trend)
    }

    fn expect(&mut self, trend: &Trend) {
        self.lines.expect(&trend.corners);
        self.ranges.expect(&[trend.ranges]);
        self.outlook.expect(&trend.outlook);
        self.corners.expect(&[trend.corners.len()]);
    }
}
