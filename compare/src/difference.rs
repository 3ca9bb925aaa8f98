//! A difference between what the scope asks for and what was given, told so that it can be tried again.

use std::fmt;

pub type Outcome = Result<(), Box<Difference>>;

pub struct Difference {
    /// the call and its numbers
    pub call: String,
    /// lines of `time low high`
    pub ranges: String,
    pub expected: String,
    pub given: String,
    pub file: Vec<u8>,
}

impl fmt::Display for Difference {
    fn fmt(&self, out: &mut fmt::Formatter) -> fmt::Result {
        writeln!(out, "difference in {}", self.call)?;
        writeln!(out, "expected {}", self.expected)?;
        writeln!(out, "given {}", self.given)?;
        write!(out, "ranges (time low high)\n{}", self.ranges)?;
        writeln!(out, "as a file")?;
        for byte in &self.file {
            write!(out, "{byte:02x}")?;
        }
        writeln!(out)
    }
}

/// What a call is expected to return.
pub fn answer(number: u8) -> String {
    match number {
        0 => "0 (accepted)".to_string(),
        number => format!("{number} (refused)"),
    }
}
