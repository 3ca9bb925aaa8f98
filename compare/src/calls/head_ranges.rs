//! Head ranges, compared.

use super::panel::LentPanel;
use super::{Returned, number, unless_short};
use crate::lent::{Lent, Use, Watched, lend_room};
use crate::panel::Panel;
use crate::random::Random;
use crate::room::Room;
use crate::tally::Call;
use crate::trace::{Lists, Range};
use humoraki::PANEL_ROOM;
use humoraki::lent::{self, RangesMut};

/// How many slices Head ranges fills.
pub const PLACES: usize = 3;

pub struct HeadRangesCall {
    panel: LentPanel,
    times: Lent<u32>,
    lows: Lent<i32>,
    highs: Lent<i32>,
    count: Lent<usize>,
}

impl HeadRangesCall {
    pub fn new() -> HeadRangesCall {
        HeadRangesCall {
            panel: LentPanel::new(Use::Read, Use::Read),
            times: Lent::new("into_times", Use::Filled),
            lows: Lent::new("into_lows", Use::Filled),
            highs: Lent::new("into_highs", Use::Filled),
            count: Lent::new("count", Use::Set),
        }
    }

    /// Calls Head ranges; `expected` is the answer on slices that are long enough.
    pub fn call(
        &mut self,
        (panel, address): (&Panel, u32),
        expected: Result<&[Range], u8>,
        room: &Room,
        random: &mut Random,
    ) -> Returned<'_> {
        let fresh = expected.map_or(0, <[Range]>::len);
        self.panel.lend(panel, random);
        let lists: &mut [&mut dyn Watched] = &mut [&mut self.times, &mut self.lows, &mut self.highs];
        let short = lend_room(lists, room, PANEL_ROOM, fresh, random);
        self.count.lend(1, 1, random);
        let expected = unless_short(short, expected);
        let given = self.head_ranges(address);
        if let Ok(ranges) = expected {
            self.expect(ranges);
        }
        Returned { call: Call::HeadRanges, expected: number(&expected), given: number(&given), lent: self.lent() }
    }

    /// All that is lent to Head ranges.
    pub fn lent(&mut self) -> Vec<&mut dyn Watched> {
        let HeadRangesCall { panel, times, lows, highs, count } = self;
        let filled: [&mut dyn Watched; 4] = [times, lows, highs, count];
        panel.lent().into_iter().chain(filled).collect()
    }

    /// The lists that an accepted call left, up to the count that it set.
    pub fn left(&self) -> Lists {
        let count = self.count.entries()[0];
        Lists {
            times: self.times.entries()[..count].to_vec(),
            lows: self.lows.entries()[..count].to_vec(),
            highs: self.highs.entries()[..count].to_vec(),
        }
    }

    fn head_ranges(&mut self, address: u32) -> Result<(), u8> {
        let into = RangesMut {
            times: self.times.entries_mut(),
            lows: self.lows.entries_mut(),
            highs: self.highs.entries_mut(),
        };
        lent::head_ranges(self.panel.panel(), address, into, self.count.entry_mut())
    }

    fn expect(&mut self, ranges: &[Range]) {
        let lists = Lists::of(ranges);
        self.times.expect(&lists.times);
        self.lows.expect(&lists.lows);
        self.highs.expect(&lists.highs);
        self.count.expect(&[ranges.len()]);
    }
}
