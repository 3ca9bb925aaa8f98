//! One thing altered between a call and its judgement, so that the comparison is seen to notice it.

use crate::calls::Returned;
use crate::lent::Use;
use crate::random::Random;
use crate::tally::Call;

/// One in so many calls that could be altered is.
const CALLS: usize = 4;

/// Where an entry of something lent is altered, and after which answer.
#[derive(Clone, Copy, PartialEq, Eq)]
pub enum Part {
    /// an entry that an accepted call read, filled or set
    Accepted,
    /// an entry past the count of an accepted call
    Past,
    /// an entry lent to a refused call
    Refused,
    /// an entry beside those that were lent
    Outside,
}

/// Parts by their names.
const PARTS: [(Part, &str); 4] =
    [(Part::Accepted, "accepted"), (Part::Past, "past"), (Part::Refused, "refused"), (Part::Outside, "outside")];

/// What the number that a call returns is called.
const NUMBER: &str = "number";

pub struct Alteration {
    call: Call,
    /// the number that the call returned, or something lent to it
    name: &'static str,
    part: Part,
    noticed: Option<bool>,
}

impl Alteration {
    /// Each alteration of a call to which such things are lent.
    pub fn all(call: Call, lent: &[(&'static str, Use)]) -> Vec<Alteration> {
        let alteration = |name, part| Alteration { call, name, part, noticed: None };
        let mut all = vec![alteration(NUMBER, Part::Accepted), alteration(NUMBER, Part::Refused)];
        for (name, usage) in lent {
            let has_past = matches!(usage, Use::Filled | Use::Extended);
            let parts = PARTS.iter().filter(|(part, _)| *part != Part::Past || has_past);
            all.extend(parts.map(|(part, _)| alteration(*name, *part)));
        }
        all
    }

    /// The alteration as it is written after `--alter`.
    pub fn words(&self) -> String {
        let part = PARTS.iter().find(|(part, _)| *part == self.part).map_or("", |(_, name)| name);
        format!("{} {} {part}", self.call.word(), self.name)
    }

    /// Alters what a call returned or was lent, if it is one to be altered and none was before.
    pub fn make(&self, returned: &mut Returned, random: &mut Random) -> bool {
        if self.noticed.is_some() || !self.concerns(returned) || !random.one_in(CALLS) {
            return false;
        }
        match returned.lent.iter_mut().find(|lent| lent.name() == self.name) {
            Some(lent) => lent.alter(self.part, random),
            None => {
                returned.given ^= 1;
                true
            }
        }
    }

    fn concerns(&self, returned: &Returned) -> bool {
        let accepted = returned.expected == 0;
        returned.call == self.call
            && match self.part {
                Part::Accepted | Part::Past => accepted,
                Part::Refused => !accepted,
                Part::Outside => true,
            }
    }

    /// Keeps whether the judgement of the altered call noticed it.
    pub fn judged(&mut self, noticed: bool) {
        self.noticed = Some(noticed);
    }

    /// Whether it was noticed; nothing while no call was altered.
    pub fn noticed(&self) -> Option<bool> {
        self.noticed
    }
}

#[cfg(test)]
mod tests {
    use crate::calls::columns::PLACES;
    use crate::desk::Desk;

    fn of_call(call: &str) -> Vec<String> {
        let words = Desk::new(1).alterations().into_iter().map(|alteration| alteration.words());
        words.filter(|words| words.starts_with(call)).collect()
    }

    #[test]
    fn the_number_and_each_thing_lent_can_be_altered() {
        let of_report = [
            "report number accepted",
            "report number refused",
            "report file accepted",
            "report file refused",
            "report file outside",
            "report text accepted",
            "report text past",
            "report text refused",
            "report text outside",
            "report count accepted",
            "report count refused",
            "report count outside",
        ];
        assert_eq!(of_call("report"), of_report);
    }

    /// The number in 2 parts, what is read or set in 3, and what is filled in 4; of a panel that is changed, the
    /// entries in 3 and the lists in 4.
    #[test]
    fn no_call_is_left_out() {
        assert_eq!(of_call("read").len(), 2 + 3 * 6 + 4 * 3);
        assert_eq!(of_call("write").len(), 2 + 4 * 3 + 4);
        assert_eq!(of_call("segment").len(), 2 + 3 * 4 + 4 * PLACES);
        assert_eq!(of_call("corners").len(), 2 + 3 * 4 + 4 * 3);
        assert_eq!(of_call("preview").len(), 2 + 3 * 12);
        assert_eq!(of_call("latest").len(), 2 + 3 * 13 + 4 * 3);
        assert_eq!(of_call("add").len(), 2 + 3 + 4 * 4);
        assert_eq!(of_call("head_ranges").len(), 2 + 3 * 6 + 4 * 3);
    }
}
