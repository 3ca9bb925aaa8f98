//! The columns of a segment's row, listed once: whatever declares, lends or owns them is made from this list.

/// Hands the columns of a segment's row to another macro, as names with the types of their entries, in the order of
/// the header. A call fills the start of each column, with one entry for each segment.
#[macro_export]
macro_rules! segment_columns {
    ($then:ident) => {
        $then! {
            // the times of the segment's first and last range
            first_times: u32,
            last_times: u32,
            // the number of its ranges; 1 says that it is open, and then the columns below have 0
            counts: u32,
            // the slow line and the fast line: the value at t is (p * t + q) / d
            slow_ps: i64,
            slow_qs: i64,
            slow_ds: i64,
            fast_ps: i64,
            fast_qs: i64,
            fast_ds: i64,
            // the first multiples of the step, not before the segment's last time, at which some fitting line and at
            // which every fitting line has reached the level, at or above it on a rising trace, at or below it on a
            // falling one, or `NONE`
            somes: u64,
            alls: u64,
        }
    };
}
