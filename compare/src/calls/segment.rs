//! Segment, compared.

use super::columns::{LentColumns, Row};
use super::lists::LentLists;
use super::{Returned, handed, narrow, number, unless_short};
use crate::lent::{Lent, Use, Watched, lend_room};
use crate::outlook::Outlook;
use crate::random::Random;
use crate::room::Room;
use crate::segments::Segment;
use crate::tally::Call;
use crate::trace::{Lists, Service};
use humoraki::{NONE, SEGMENT_ROOM, lent};

pub struct SegmentCall {
    lists: LentLists,
    columns: LentColumns,
    count: Lent<usize>,
}

impl SegmentCall {
    pub fn new() -> SegmentCall {
        SegmentCall { lists: LentLists::new(), columns: LentColumns::new(), count: Lent::new("count", Use::Set) }
    }

    /// Calls Segment; `expected` is the answer on slices that are long enough.
    pub fn call(
        &mut self,
        (service, lists): (Service, &Lists),
        expected: Result<&[Segment], u8>,
        room: &Room,
        random: &mut Random,
    ) -> Returned<'_> {
        let fresh = lists.times.len().min(SEGMENT_ROOM);
        self.lists.lend(lists, random);
        let short = lend_room(&mut self.columns.lent(), room, SEGMENT_ROOM, fresh, random);
        self.count.lend(1, 1, random);
        let expected = unless_short(short, expected);
        let (columns, count) = (self.columns.columns(), self.count.entry_mut());
        let given = lent::segment(handed(service), self.lists.ranges(), columns, count);
        if let Ok(segments) = expected {
            self.columns.expect(&segments.iter().map(row).collect::<Vec<_>>());
            self.count.expect(&[segments.len()]);
        }
        Returned { call: Call::Segment, expected: number(&expected), given: number(&given), lent: self.lent() }
    }

    /// All that is lent to Segment.
    pub fn lent(&mut self) -> Vec<&mut dyn Watched> {
        let SegmentCall { lists, columns, count } = self;
        let count: [&mut dyn Watched; 1] = [count];
        lists.lent().into_iter().chain(columns.lent()).chain(count).collect()
    }
}

pub fn row(segment: &Segment) -> Row {
    let (lines, times) = outlook_numbers(&segment.outlook);
    let [slow_ps, slow_qs, slow_ds, fast_ps, fast_qs, fast_ds] = lines;
    let [somes, alls] = times;
    Row {
        first_times: segment.first,
        last_times: segment.last,
        counts: segment.count as u32,
        slow_ps,
        slow_qs,
        slow_ds,
        fast_ps,
        fast_qs,
        fast_ds,
        somes,
        alls,
    }
}

/// The numbers of the slow and the fast line, and the two times; an open outlook has 0 for all of them.
pub fn outlook_numbers(outlook: &Outlook) -> ([i64; 6], [u64; 2]) {
    match *outlook {
        Outlook::Open => ([0; 6], [0; 2]),
        Outlook::Lines { slow, fast, some, all } => {
            ([slow.p, slow.q, slow.d, fast.p, fast.q, fast.d].map(narrow), [some, all].map(time))
        }
    }
}

fn time(time: Option<u32>) -> u64 {
    time.map_or(NONE, u64::from)
}
