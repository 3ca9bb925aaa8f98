//! Read, compared.

use super::{Returned, number, unless_short};
use crate::file::visible;
use crate::lent::{Lent, Use, Watched, lend_room};
use crate::random::Random;
use crate::room::Room;
use crate::tally::Call;
use crate::trace::{Lists, Trace};
use humoraki::READ_ROOM;
use humoraki::lent::{self, RangesMut, RecordMut};

/// How many slices Read fills.
pub const PLACES: usize = 3;

pub struct ReadCall {
    file: Lent<u8>,
    times: Lent<u32>,
    lows: Lent<i32>,
    highs: Lent<i32>,
    address: Lent<u32>,
    level: Lent<i32>,
    direction: Lent<u32>,
    step: Lent<u32>,
    ranges: Lent<usize>,
}

impl ReadCall {
    pub fn new() -> ReadCall {
        ReadCall {
            file: Lent::new("file", Use::Read),
            times: Lent::new("times", Use::Filled),
            lows: Lent::new("lows", Use::Filled),
            highs: Lent::new("highs", Use::Filled),
            address: Lent::new("address", Use::Set),
            level: Lent::new("level", Use::Set),
            direction: Lent::new("direction", Use::Set),
            step: Lent::new("step", Use::Set),
            ranges: Lent::new("ranges", Use::Set),
        }
    }

    /// Calls Read; `expected` is the answer on slices that are long enough.
    pub fn call(
        &mut self,
        file: &[u8],
        expected: Result<&Trace, u8>,
        room: &Room,
        random: &mut Random,
    ) -> Returned<'_> {
        let short = self.lend(file, room, random);
        let expected = unless_short(short, expected);
        let given = self.read();
        if let Ok(trace) = expected {
            self.expect(trace);
        }
        Returned { call: Call::Read, expected: number(&expected), given: number(&given), lent: self.lent() }
    }

    /// All that is lent to Read.
    pub fn lent(&mut self) -> Vec<&mut dyn Watched> {
        let ReadCall { file, times, lows, highs, address, level, direction, step, ranges } = self;
        vec![file, times, lows, highs, address, level, direction, step, ranges]
    }

    /// Whether a slice is too short.
    fn lend(&mut self, file: &[u8], room: &Room, random: &mut Random) -> bool {
        let fresh = visible(file).ranges.len().min(READ_ROOM);
        self.file.lend_filled(file, random);
        let lists: &mut [&mut dyn Watched] = &mut [&mut self.times, &mut self.lows, &mut self.highs];
        let short = lend_room(lists, room, READ_ROOM, fresh, random);
        self.address.lend(1, 1, random);
        self.level.lend(1, 1, random);
        self.direction.lend(1, 1, random);
        self.step.lend(1, 1, random);
        self.ranges.lend(1, 1, random);
        short
    }

    fn read(&mut self) -> Result<(), u8> {
        let into = RangesMut {
            times: self.times.entries_mut(),
            lows: self.lows.entries_mut(),
            highs: self.highs.entries_mut(),
        };
        let record = RecordMut {
            address: self.address.entry_mut(),
            level: self.level.entry_mut(),
            direction: self.direction.entry_mut(),
            step: self.step.entry_mut(),
            ranges: self.ranges.entry_mut(),
        };
        lent::read(self.file.entries(), into, record)
    }

    fn expect(&mut self, trace: &Trace) {
        let lists = Lists::of(&trace.ranges);
        self.times.expect(&lists.times);
        self.lows.expect(&lists.lows);
        self.highs.expect(&lists.highs);
        self.address.expect(&[trace.address]);
        self.level.expect(&[trace.service.level]);
        self.direction.expect(&[trace.service.direction]);
        self.step.expect(&[trace.service.step]);
        self.ranges.expect(&[trace.ranges.len()]);
    }
}
