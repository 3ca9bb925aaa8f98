//! Both programs must give the same before either is measured.

use crate::buffers::Buffers;
use crate::calls::Call;
use humoraki::Trace;

/// A step that no measured trace has; the two programs have to agree on it as well.
const STEP: u32 = 28_800;

/// The mean count of a call, which both programs agree on.
pub fn agreed_count(call: Call, traces: &[Trace]) -> usize {
    let mut total = 0;
    for trace in traces {
        agreed(call, &Trace { step: STEP, ..trace.clone() });
        total += agreed(call, trace);
    }
    total / traces.len()
}

/// The count of a call, which both programs agree on, as on the whole of each slice. A difference ends the run.
fn agreed(call: Call, trace: &Trace) -> usize {
    let mut one = Buffers::new();
    let mut other = Buffers::new();
    let proved = call.proved(trace, &mut one);
    let unproved = call.unproved(trace, &mut other);
    assert!(proved == unproved, "the answers differ: {proved:?}, {unproved:?}");
    assert!(one == other, "the slices differ");
    proved.expect("a trace is turned down")
}
