//! The panel that Add is lent to change, and Head ranges to read.

use crate::lent::{Lent, Use, Watched};
use crate::panel::Panel;
use crate::random::Random;
use humoraki::Entry;
use humoraki::lent::{self, PanelMut, Ranges, RangesMut};

pub struct LentPanel {
    entries: Lent<Entry>,
    addresses: Lent<u32>,
    times: Lent<u32>,
    lows: Lent<i32>,
    highs: Lent<i32>,
}

impl LentPanel {
    /// A panel whose entries and whose lists are lent for this.
    pub fn new(entries: Use, lists: Use) -> LentPanel {
        LentPanel {
            entries: Lent::new("entries", entries),
            addresses: Lent::new("addresses", lists),
            times: Lent::new("times", lists),
            lows: Lent::new("lows", lists),
            highs: Lent::new("highs", lists),
        }
    }

    pub fn lend(&mut self, panel: &Panel, random: &mut Random) {
        self.entries.lend_filled(&panel.entries, random);
        self.addresses.lend_filled(&panel.addresses, random);
        self.times.lend_filled(&panel.lists.times, random);
        self.lows.lend_filled(&panel.lists.lows, random);
        self.highs.lend_filled(&panel.lists.highs, random);
    }

    pub fn panel(&self) -> lent::Panel<'_> {
        let ranges = Ranges { times: self.times.entries(), lows: self.lows.entries(), highs: self.highs.entries() };
        lent::Panel { entries: self.entries.entries(), addresses: self.addresses.entries(), ranges }
    }

    pub fn panel_mut(&mut self) -> PanelMut<'_> {
        let ranges = RangesMut {
            times: self.times.entries_mut(),
            lows: self.lows.entries_mut(),
            highs: self.highs.entries_mut(),
        };
        PanelMut { entries: self.entries.entries_mut(), addresses: self.addresses.entries_mut(), ranges }
    }

    /// What entries and places held must be after an accepted Add; all else must be as it was lent.
    pub fn expect(&mut self, panel: &Panel) {
        let held = panel.held() as usize;
        self.entries.expect(&panel.entries);
        self.addresses.expect(&panel.addresses[..held]);
        self.times.expect(&panel.lists.times[..held]);
        self.lows.expect(&panel.lists.lows[..held]);
        self.highs.expect(&panel.lists.highs[..held]);
    }

    pub fn lent(&mut self) -> [&mut dyn Watched; 5] {
        let LentPanel { entries, addresses, times, lows, highs } = self;
        [entries, addresses, times, lows, highs]
    }
}
