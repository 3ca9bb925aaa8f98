//! The three slices that Corners and Latest fill with corners.

use super::narrow;
use crate::lent::{Lent, Use, Watched, lend_room};
use crate::line::Line;
use crate::random::Random;
use crate::room::Room;
use humoraki::CORNER_ROOM;
use humoraki::lent::Lines;

/// How many slices there are.
pub const PLACES: usize = 3;

pub struct LentLines {
    ps: Lent<i64>,
    qs: Lent<i64>,
    ds: Lent<i64>,
}

impl LentLines {
    pub fn new() -> LentLines {
        LentLines {
            ps: Lent::new("ps", Use::Filled),
            qs: Lent::new("qs", Use::Filled),
            ds: Lent::new("ds", Use::Filled),
        }
    }

    /// Lends slices for the corners of so many ranges; whether one is too short.
    pub fn lend(&mut self, ranges: usize, room: &Room, random: &mut Random) -> bool {
        let fresh = (2 * ranges).min(CORNER_ROOM);
        lend_room(&mut self.lent(), room, CORNER_ROOM, fresh, random)
    }

    pub fn lines(&mut self) -> Lines<'_> {
        Lines { ps: self.ps.entries_mut(), qs: self.qs.entries_mut(), ds: self.ds.entries_mut() }
    }

    pub fn expect(&mut self, corners: &[Line]) {
        let numbers =
            |part: fn(&Line) -> i128| -> Vec<i64> { corners.iter().map(|line| narrow(part(line))).collect() };
        self.ps.expect(&numbers(|line| line.p));
        self.qs.expect(&numbers(|line| line.q));
        self.ds.expect(&numbers(|line| line.d));
    }

    pub fn lent(&mut self) -> [&mut dyn Watched; PLACES] {
        let LentLines { ps, qs, ds } = self;
        [ps, qs, ds]
    }
}
