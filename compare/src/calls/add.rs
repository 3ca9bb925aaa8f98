//! Add, compared.

use super::panel::LentPanel;
use super::{Returned, number};
use crate::lent::{Use, Watched};
use crate::panel::Panel;
use crate::random::Random;
use crate::tally::Call;
use crate::trace::Range;
use humoraki::lent;

pub struct AddCall {
    panel: LentPanel,
}

impl AddCall {
    pub fn new() -> AddCall {
        AddCall { panel: LentPanel::new(Use::Changed, Use::Extended) }
    }

    /// Calls Add; `expected` is the panel with the range on it.
    pub fn call(
        &mut self,
        (panel, address, range): (&Panel, u32, &Range),
        expected: Result<&Panel, u8>,
        random: &mut Random,
    ) -> Returned<'_> {
        self.panel.lend(panel, random);
        let given = lent::add(self.panel.panel_mut(), address, range.time, range.low, range.high);
        if let Ok(panel) = expected {
            self.panel.expect(panel);
        }
        Returned { call: Call::Add, expected: number(&expected), given: number(&given), lent: self.lent() }
    }

    /// All that is lent to Add.
    pub fn lent(&mut self) -> Vec<&mut dyn Watched> {
        self.panel.lent().into_iter().collect()
    }
}
