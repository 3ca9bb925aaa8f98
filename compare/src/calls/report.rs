//! The report, compared.

use super::{Returned, number, unless_short};
use crate::lent::{Lent, Use, Watched, lend_room};
use crate::random::Random;
use crate::room::Room;
use crate::tally::Call;
use humoraki::{REPORT_ROOM, lent};

pub struct ReportCall {
    file: Lent<u8>,
    text: Lent<u8>,
    count: Lent<usize>,
}

impl ReportCall {
    pub fn new() -> ReportCall {
        ReportCall {
            file: Lent::new("file", Use::Read),
            text: Lent::new("text", Use::Filled),
            count: Lent::new("count", Use::Set),
        }
    }

    /// Calls the report; `expected` is the text in a slice that is long enough.
    pub fn call(&mut self, file: &[u8], expected: &str, room: &Room, random: &mut Random) -> Returned<'_> {
        self.file.lend_filled(file, random);
        let short = lend_room(&mut [&mut self.text], room, REPORT_ROOM, expected.len(), random);
        self.count.lend(1, 1, random);
        let answer = unless_short(short, Ok(expected));
        let given = lent::report(self.file.entries(), self.text.entries_mut(), self.count.entry_mut());
        if answer.is_ok() {
            self.text.expect(expected.as_bytes());
            self.count.expect(&[expected.len()]);
        }
        Returned { call: Call::Report, expected: number(&answer), given: number(&given), lent: self.lent() }
    }

    /// All that is lent to the report.
    pub fn lent(&mut self) -> Vec<&mut dyn Watched> {
        let ReportCall { file, text, count } = self;
        vec![file, text, count]
    }

    /// Of a count that was not set, or is far off, no more text is shown than a little after what is expected.
    pub fn in_words(&self, expected: &str, room: &Room) -> String {
        let shown = self.count.entries()[0].min(expected.len() + 100);
        let end = self.text.len().min(shown);
        let given = String::from_utf8_lossy(&self.text.entries()[..end]);
        format!("the report, {room}\nexpected text\n{expected}given text\n{given}")
    }
}
