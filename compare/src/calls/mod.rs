//! Each call of the library beside what is expected of it, with all that was lent to it compared whole.

pub mod add;
pub mod columns;
pub mod corners;
pub mod head_ranges;
pub mod latest;
pub mod lines;
pub mod lists;
pub mod outlook;
pub mod panel;
pub mod preview;
pub mod read;
pub mod report;
pub mod segment;
pub mod write;

use crate::difference::{Difference, answer};
use crate::file::{bytes, visible};
use crate::lent::{Use, Watched};
use crate::panel::{PLACES, Panel};
use crate::tally::Call;
use crate::trace::{Lists, Service, Trace};
use humoraki::lent;

/// The numbers that a call returned and was to return, and everything that was lent to it.
pub struct Returned<'a> {
    pub call: Call,
    pub expected: u8,
    pub given: u8,
    pub lent: Vec<&'a mut dyn Watched>,
}

/// What was expected of a call and what it gave, in words, where the two differ.
pub struct Wrong {
    expected: String,
    given: String,
}

/// A call in words, for a difference.
pub struct Told {
    pub call: String,
    pub lists: Lists,
    pub file: Vec<u8>,
}

impl Told {
    /// A call on a file, with what can be made out of it.
    pub fn on_file(call: String, file: &[u8]) -> Told {
        let Trace { address, service, ranges } = visible(file);
        let call = format!("{call}\n{} bytes, address {address}, {}", file.len(), service.in_words());
        Told { call, lists: Lists::of(&ranges), file: file.to_vec() }
    }

    /// A call on lists; address and service are for the file only.
    pub fn on_lists(call: String, lists: &Lists, address: u32, service: Service) -> Told {
        let file = bytes(&Trace { address, service, ranges: lists.ranges() });
        Told { call, lists: lists.clone(), file }
    }

    /// A call on a panel, with the ranges in the places held.
    pub fn on_panel(call: String, panel: &Panel) -> Told {
        let call = format!("{call}\n{}", panel.in_words());
        let mut ranges = panel.lists.ranges();
        ranges.truncate(panel.held().min(PLACES as u64) as usize);
        Told { call, lists: Lists::of(&ranges), file: Vec::new() }
    }
}

impl Returned<'_> {
    /// Whether the number and everything lent are as expected.
    pub fn judge(&self) -> Result<(), Wrong> {
        let slices: Vec<String> = self.lent.iter().filter_map(|lent| lent.difference()).collect();
        if self.expected == self.given && slices.is_empty() {
            return Ok(());
        }
        let given = format!("{}\n{}", answer(self.given), slices.concat().trim_end());
        Err(Wrong { expected: answer(self.expected), given })
    }
}

impl Wrong {
    /// The difference that it is in this call.
    pub fn in_call(self, told: Told) -> Box<Difference> {
        let Wrong { expected, given } = self;
        Box::new(Difference { call: told.call, ranges: told.lists.in_words(), expected, given, file: told.file })
    }
}

/// What is lent by name, and what it is lent for.
pub fn uses(lent: Vec<&mut dyn Watched>) -> Vec<(&'static str, Use)> {
    lent.iter().map(|lent| (lent.name(), lent.usage())).collect()
}

/// What is expected, unless a lent slice is too short.
pub fn unless_short<T>(short: bool, expected: Result<T, u8>) -> Result<T, u8> {
    if short { Err(8) } else { expected }
}

/// The number that a call returns.
pub fn number<T>(answer: &Result<T, u8>) -> u8 {
    answer.as_ref().err().copied().unwrap_or(0)
}

/// A service as the library takes it.
fn handed(service: Service) -> lent::Service {
    let Service { level, direction, step } = service;
    lent::Service { level, direction, step }
}

/// A line's number as the library has it.
fn narrow(number: i128) -> i64 {
    i64::try_from(number).expect("a number of a line through two ends")
}
