//! Preview, compared.

use super::lists::LentLists;
use super::outlook::LentOutlook;
use super::{Returned, handed, number};
use crate::answers::Effect;
use crate::lent::{Lent, Use, Watched};
use crate::random::Random;
use crate::tally::Call;
use crate::trace::{Lists, Range, Service};
use humoraki::lent::{self, EffectMut};

pub struct PreviewCall {
    lists: LentLists,
    kind: Lent<u32>,
    outlook: LentOutlook,
}

impl PreviewCall {
    pub fn new() -> PreviewCall {
        PreviewCall { lists: LentLists::new(), kind: Lent::new("kind", Use::Set), outlook: LentOutlook::new() }
    }

    pub fn call(
        &mut self,
        (service, lists, range): (Service, &Lists, &Range),
        expected: Result<&Effect, u8>,
        random: &mut Random,
    ) -> Returned<'_> {
        self.lists.lend(lists, random);
        self.kind.lend(1, 1, random);
        self.outlook.lend(random);
        let given = self.preview(service, range);
        if let Ok(effect) = expected {
            self.expect(effect);
        }
        Returned { call: Call::Preview, expected: number(&expected), given: number(&given), lent: self.lent() }
    }

    /// All that is lent to Preview.
    pub fn lent(&mut self) -> Vec<&mut dyn Watched> {
        let PreviewCall { lists, kind, outlook } = self;
        let kind: [&mut dyn Watched; 1] = [kind];
        lists.lent().into_iter().chain(kind).chain(outlook.lent()).collect()
    }

    fn preview(&mut self, service: Service, range: &Range) -> Result<(), u8> {
        let ([slow_p, slow_q, slow_d, fast_p, fast_q, fast_d], [some, all]) = self.outlook.numbers();
        let kind = self.kind.entry_mut();
        let effect = EffectMut { kind, slow_p, slow_q, slow_d, fast_p, fast_q, fast_d, some, all };
        lent::preview(handed(service), self.lists.ranges(), range.time, range.low, range.high, effect)
    }

    /// The kind is 0 where the range joins, and 1 where it begins a segment.
    fn expect(&mut self, effect: &Effect) {
        self.kind.expect(&[effect.begins as u32]);
        self.outlook.expect(&effect.outlook);
    }
}
