//! Corners, compared.

use super::lines::LentLines;
use super::lists::LentLists;
use super::{Returned, number, unless_short};
use crate::lent::{Lent, Use, Watched};
use crate::line::Line;
use crate::random::Random;
use crate::room::Room;
use crate::tally::Call;
use crate::trace::Lists;
use humoraki::lent;

pub struct CornersCall {
    lists: LentLists,
    corners: LentLines,
    count: Lent<usize>,
}

impl CornersCall {
    pub fn new() -> CornersCall {
        CornersCall { lists: LentLists::new(), corners: LentLines::new(), count: Lent::new("count", Use::Set) }
    }

    /// Calls Corners; `expected` is the answer on slices that are long enough; no corners say that the fit is open.
    pub fn call(
        &mut self,
        (k, lists): (usize, &Lists),
        expected: Result<&[Line], u8>,
        room: &Room,
        random: &mut Random,
    ) -> Returned<'_> {
        self.lists.lend(lists, random);
        let short = self.corners.lend(lists.times.len(), room, random);
        self.count.lend(1, 1, random);
        let expected = unless_short(short, expected);
        let given = lent::corners(k, self.lists.ranges(), self.corners.lines(), self.count.entry_mut());
        if let Ok(corners) = expected {
            self.corners.expect(corners);
            self.count.expect(&[corners.len()]);
        }
        Returned { call: Call::Corners, expected: number(&expected), given: number(&given), lent: self.lent() }
    }

    /// All that is lent to Corners.
    pub fn lent(&mut self) -> Vec<&mut dyn Watched> {
        let CornersCall { lists, corners, count } = self;
        let count: [&mut dyn Watched; 1] = [count];
        lists.lent().into_iter().chain(corners.lent()).chain(count).collect()
    }
}
