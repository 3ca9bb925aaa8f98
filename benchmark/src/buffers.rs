//! The memory behind the lent slices and numbers, allocated a single time for each program.

use humoraki::CORNER_ROOM;
use humoraki::lent::{EffectMut, Lines, Table, TrendMut};

#[derive(Clone, PartialEq)]
pub struct Buffers {
    pub segments: Table,
    corners: [Vec<i64>; 3],
    kind: u32,
    pub ranges: usize,
    corner_count: usize,
    lines: [i64; 6],
    times: [u64; 2],
}

impl Buffers {
    /// Every entry has one bit pattern, so that an entry changed past the reported count shows.
    pub fn new() -> Self {
        const OLD: u8 = 0x5a;
        Buffers {
            segments: Table::holding(OLD),
            corners: [(); 3].map(|()| vec![OLD.into(); CORNER_ROOM]),
            kind: OLD.into(),
            ranges: OLD.into(),
            corner_count: OLD.into(),
            lines: [OLD.into(); 6],
            times: [OLD.into(); 2],
        }
    }

    pub fn corners(&mut self) -> Lines<'_> {
        let [ps, qs, ds] = &mut self.corners;
        Lines { ps, qs, ds }
    }

    pub fn effect(&mut self) -> EffectMut<'_> {
        let [slow_p, slow_q, slow_d, fast_p, fast_q, fast_d] = self.lines.each_mut();
        let [some, all] = self.times.each_mut();
        EffectMut { kind: &mut self.kind, slow_p, slow_q, slow_d, fast_p, fast_q, fast_d, some, all }
    }

    pub fn trend(&mut self) -> (Lines<'_>, TrendMut<'_>) {
        let [ps, qs, ds] = &mut self.corners;
        let [slow_p, slow_q, slow_d, fast_p, fast_q, fast_d] = self.lines.each_mut();
        let [some, all] = self.times.each_mut();
        let (ranges, corners) = (&mut self.ranges, &mut self.corner_count);
        let trend = TrendMut { ranges, slow_p, slow_q, slow_d, fast_p, fast_q, fast_d, some, all, corners };
        (Lines { ps, qs, ds }, trend)
    }
}
