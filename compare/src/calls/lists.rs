//! The lists that Write, Segment, Corners, Preview and Latest are lent to read.

use crate::lent::{Lent, Use, Watched};
use crate::random::Random;
use crate::trace::Lists;
use humoraki::lent::Ranges;

pub struct LentLists {
    times: Lent<u32>,
    lows: Lent<i32>,
    highs: Lent<i32>,
}

impl LentLists {
    pub fn new() -> LentLists {
        LentLists {
            times: Lent::new("times", Use::Read),
            lows: Lent::new("lows", Use::Read),
            highs: Lent::new("highs", Use::Read),
        }
    }

    pub fn lend(&mut self, lists: &Lists, random: &mut Random) {
        self.times.lend_filled(&lists.times, random);
        self.lows.lend_filled(&lists.lows, random);
        self.highs.lend_filled(&lists.highs, random);
    }

    pub fn ranges(&self) -> Ranges<'_> {
        Ranges { times: self.times.entries(), lows: self.lows.entries(), highs: self.highs.entries() }
    }

    pub fn lent(&mut self) -> [&mut dyn Watched; 3] {
        let LentLists { times, lows, highs } = self;
        [times, lows, highs]
    }
}
