//! Write, compared.

use super::lists::LentLists;
use super::{Returned, handed, number, unless_short};
use crate::lent::{Lent, Use, Watched, lend_room};
use crate::random::Random;
use crate::room::Room;
use crate::tally::Call;
use crate::trace::{Lists, Service};
use humoraki::{WRITE_ROOM, lent};

/// How many slices Write fills.
pub const PLACES: usize = 1;

pub struct WriteCall {
    lists: LentLists,
    file: Lent<u8>,
    count: Lent<usize>,
}

impl WriteCall {
    pub fn new() -> WriteCall {
        WriteCall {
            lists: LentLists::new(),
            file: Lent::new("file", Use::Filled),
            count: Lent::new("count", Use::Set),
        }
    }

    /// Calls Write; `expected` is the answer on a slice that is long enough.
    pub fn call(
        &mut self,
        (address, service, lists): (u32, Service, &Lists),
        expected: Result<&[u8], u8>,
        room: &Room,
        random: &mut Random,
    ) -> Returned<'_> {
        let fresh = expected.map_or(0, <[u8]>::len);
        self.lists.lend(lists, random);
        let short = lend_room(&mut [&mut self.file], room, WRITE_ROOM, fresh, random);
        self.count.lend(1, 1, random);
        let expected = unless_short(short, expected);
        let (file, count) = (self.file.entries_mut(), self.count.entry_mut());
        let given = lent::write(address, handed(service), self.lists.ranges(), file, count);
        if let Ok(bytes) = expected {
            self.file.expect(bytes);
            self.count.expect(&[bytes.len()]);
        }
        Returned { call: Call::Write, expected: number(&expected), given: number(&given), lent: self.lent() }
    }

    /// All that is lent to Write.
    pub fn lent(&mut self) -> Vec<&mut dyn Watched> {
        let WriteCall { lists, file, count } = self;
        let [times, lows, highs] = lists.lent();
        vec![times, lows, highs, file, count]
    }
}
