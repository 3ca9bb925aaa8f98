//! The measures that stand together in the table: one call on traces of one shape, at each length.

use crate::agreement::agreed_count;
use crate::buffers::Buffers;
use crate::calls::Call;
use crate::measure::{Measure, Times};
use crate::traces::{Shape, traces};

pub const LENGTHS: [usize; 5] = [256, 512, 1024, 2048, 4096];

/// Ranges of all traces of one length together.
const RANGES: usize = 16_384;

pub struct Group {
    pub call: Call,
    pub shape: Shape,
    /// The call's count at the last length: of segments, of corners, or of the ranges of a run; Preview has none.
    pub count: usize,
    measures: Vec<Measure>,
}

impl Group {
    /// Ends the run where the two programs differ.
    pub fn new(call: Call, shape: Shape) -> Self {
        let mut count = 0;
        let mut measures = Vec::new();
        for n in LENGTHS {
            let traces = traces(shape, n, RANGES / n);
            count = agreed_count(call, &traces);
            measures.push(Measure::new(call, traces));
        }
        Group { call, shape, count, measures }
    }

    pub fn round(&mut self, one: &mut Buffers, other: &mut Buffers) {
        for measure in &mut self.measures {
            measure.round(one, other);
        }
    }

    /// One number of the times, at each length.
    pub fn column(&self, of: fn(&Times) -> f64) -> Vec<f64> {
        self.measures.iter().map(|m| of(&m.times())).collect()
    }
}
