//! The least times of both programs in turn: nanoseconds for each range, or for each call on a panel.

use crate::buffers::Buffers;
use crate::calls::Call;
use humoraki::Trace;
use std::hint::black_box;
use std::time::{Duration, Instant};

/// For so long a round goes on, at least.
const ROUND: Duration = Duration::from_millis(40);

/// A program: it makes the call on a trace, and fills the buffers.
type Program = fn(Call, &Trace, &mut Buffers) -> Result<usize, u8>;

/// What one program has needed for each run, at the least, since whatever else the machine does only adds to it.
pub struct Least(Vec<Duration>);

impl Least {
    pub fn new(runs: usize) -> Self {
        Least(vec![Duration::MAX; runs])
    }

    /// Makes each run once. They follow each other, so that the processor cannot know one by heart.
    pub fn pass(&mut self, mut run: impl FnMut(usize)) {
        for (place, least) in self.0.iter_mut().enumerate() {
            let begin = Instant::now();
            run(place);
            *least = begin.elapsed().min(*least);
        }
    }

    /// Of all runs together.
    pub fn nanoseconds(&self) -> f64 {
        let total: Duration = self.0.iter().sum();
        total.as_nanos() as f64
    }
}

/// Has both programs make all their runs, over and over for one round. The first pass warms up.
pub fn in_turn(mut both: impl FnMut()) {
    let begin = Instant::now();
    while begin.elapsed() < ROUND {
        both();
    }
}

/// One call on traces of one shape and length, with the least times so far.
pub struct Measure {
    call: Call,
    traces: Vec<Trace>,
    proved: Least,
    unproved: Least,
}

impl Measure {
    pub fn new(call: Call, traces: Vec<Trace>) -> Self {
        let runs = traces.len();
        Measure { call, proved: Least::new(runs), unproved: Least::new(runs), traces }
    }

    /// Each program on each trace, with slices of its own.
    pub fn round(&mut self, one: &mut Buffers, other: &mut Buffers) {
        let Measure { call, traces, proved, unproved } = self;
        let run = |program: Program, place: usize, out: &mut Buffers| {
            let _ = black_box(program(*call, black_box(&traces[place]), black_box(out)));
        };
        in_turn(|| {
            proved.pass(|place| run(Call::proved, place, one));
            unproved.pass(|place| run(Call::unproved, place, other));
        });
    }

    pub fn times(&self) -> Times {
        let ranges: usize = self.traces.iter().map(|t| t.times.len()).sum();
        let for_each = |least: &Least| least.nanoseconds() / ranges as f64;
        Times { proved: for_each(&self.proved), unproved: for_each(&self.unproved) }
    }
}

/// Nanoseconds for each range, or for each call.
pub struct Times {
    pub proved: f64,
    pub unproved: f64,
}

impl Times {
    pub fn ratio(&self) -> f64 {
        self.proved / self.unproved
    }
}
