//! What was compared, as a table of counts, and what was not.

#[derive(Clone, Copy, PartialEq, Eq)]
pub enum Call {
    Read,
    Write,
    Segment,
    Corners,
    Preview,
    Latest,
    Report,
    Add,
    HeadRanges,
}

/// The calls by name, with the answers that the scope has for each; 0 is accepted.
const CALLS: [(Call, &str, &[usize]); 9] = [
    (Call::Read, "Read", &[0, 1, 2, 3, 4, 5, 6, 7, 8, 11]),
    (Call::Write, "Write", &[0, 4, 5, 6, 7, 8, 10]),
    (Call::Segment, "Segment", &[0, 4, 5, 6, 7, 8, 10]),
    (Call::Corners, "Corners", &[0, 4, 5, 6, 7, 8, 9, 10]),
    (Call::Preview, "Preview", &[0, 4, 5, 6, 7, 10]),
    (Call::Latest, "Latest", &[0, 4, 5, 6, 7, 8, 10]),
    (Call::Report, "report", &[0, 8]),
    (Call::Add, "Add", &[0, 4, 5, 6, 8, 12, 13, 14]),
    (Call::HeadRanges, "Head ranges", &[0, 8, 12, 14]),
];

/// The largest number of a refusal.
const LARGEST: usize = 14;

#[derive(Default)]
pub struct Tally {
    /// by call, accepted first, then by refusal
    answers: [[u64; LARGEST + 1]; CALLS.len()],
    counts: Vec<(String, u64)>,
}

impl Call {
    pub fn name(self) -> &'static str {
        CALLS[self as usize].1
    }

    /// The name as one word.
    pub fn word(self) -> String {
        self.name().to_lowercase().replace(' ', "_")
    }
}

impl Tally {
    pub fn answer(&mut self, call: Call, number: u8) {
        self.answers[call as usize][number as usize] += 1;
    }

    /// Adds to a count, which stands in the table where it was first added to.
    pub fn add(&mut self, name: &str, count: usize) {
        *self.count(name) += count as u64;
    }

    /// Raises a count to a number, if that is larger.
    pub fn raise(&mut self, name: &str, number: usize) {
        let count = self.count(name);
        *count = (*count).max(number as u64);
    }

    fn count(&mut self, name: &str) -> &mut u64 {
        let place = self.counts.iter().position(|(known, _)| known == name);
        let place = place.unwrap_or_else(|| {
            self.counts.push((name.to_string(), 0));
            self.counts.len() - 1
        });
        &mut self.counts[place].1
    }

    /// What the comparison is short of, in words: an answer that a call never gave, an answer that the scope does not
    /// have for a call, a count that is still 0.
    pub fn faults(&self) -> Vec<String> {
        let mut faults = Vec::new();
        for (call, name, answers) in CALLS {
            for (number, count) in self.answers[call as usize].iter().enumerate() {
                match (answers.contains(&number), *count > 0) {
                    (true, false) => faults.push(format!("never tried: {name}, {}", title(number))),
                    (false, true) => faults.push(format!("not in the scope: {name}, {}", title(number))),
                    _ => {}
                }
            }
        }
        let empty = self.counts.iter().filter(|(_, count)| *count == 0);
        faults.extend(empty.map(|(name, _)| format!("never tried: {name}")));
        faults
    }

    pub fn table(&self) -> String {
        let mut text = format!("{:>12}", "");
        for number in 0..=LARGEST {
            text += &format!("{:>9}", title(number));
        }
        text += "\n";
        for (call, name, _) in CALLS {
            text += &format!("{name:>12}");
            for count in self.answers[call as usize] {
                text += &format!("{count:>9}");
            }
            text += "\n";
        }
        for (name, count) in &self.counts {
            text += &format!("{count:>12} {name}\n");
        }
        text
    }
}

/// An answer as the table is headed.
fn title(number: usize) -> String {
    if number == 0 { "accepted".to_string() } else { number.to_string() }
}

#[cfg(test)]
mod tests {
    use super::*;

    /// Every answer of every call once, but for one.
    fn all_but(left_out: Option<(Call, usize)>) -> Tally {
        let mut tally = Tally::default();
        for (call, _, answers) in CALLS {
            let seen = answers.iter().filter(|number| Some((call, **number)) != left_out);
            seen.for_each(|number| tally.answer(call, *number as u8));
        }
        tally
    }

    #[test]
    fn every_answer_once_will_do() {
        assert!(all_but(None).faults().is_empty());
    }

    #[test]
    fn an_answer_that_one_call_never_gave_is_named() {
        for (call, name, answers) in CALLS {
            for number in answers {
                let faults = all_but(Some((call, *number))).faults();
                assert_eq!(faults, [format!("never tried: {name}, {}", title(*number))]);
            }
        }
    }

    #[test]
    fn an_answer_that_a_call_cannot_give_is_named() {
        for (call, name, answers) in CALLS {
            for number in (0..=LARGEST).filter(|number| !answers.contains(number)) {
                let mut tally = all_but(None);
                tally.answer(call, number as u8);
                assert_eq!(tally.faults(), [format!("not in the scope: {name}, {number}")]);
            }
        }
    }

    #[test]
    fn a_count_of_nothing_is_named() {
        let mut tally = all_but(None);
        tally.add("long traces", 0);
        tally.add("small traces", 1);
        assert_eq!(tally.faults(), ["never tried: long traces"]);
    }
}
