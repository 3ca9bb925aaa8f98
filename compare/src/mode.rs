//! What the program is asked to do, from the words after its name.

use crate::alteration::Alteration;
use crate::desk::Desk;
use crate::stored::Program;

pub const USAGE: &str = "\
usage: compare [SEED [TRACES]]          two whole numbers
       compare --alter CALL NAME PART   one line of those that --alterations prints
       compare --alterations
       compare --answers PROGRAM        segment or corners, with the trials on standard input";

const SEED: u64 = 1;
const TRACES: usize = 30_000;

pub enum Mode {
    /// Compare every call, with so many small traces.
    Compare { seed: u64, traces: usize },
    /// Compare with one thing altered after a call.
    Alter(Alteration),
    /// List what can be altered.
    Alterations,
    /// Print the stored output of a test program.
    Answers(Program),
}

impl Mode {
    /// Nothing if the words are not understood.
    pub fn from_words(words: &[String]) -> Option<Mode> {
        let words: Vec<&str> = words.iter().map(String::as_str).collect();
        match words.as_slice() {
            ["--alter", altered @ ..] => alteration(&altered.join(" ")).map(Mode::Alter),
            ["--alterations"] => Some(Mode::Alterations),
            ["--answers", "segment"] => Some(Mode::Answers(Program::Segment)),
            ["--answers", "corners"] => Some(Mode::Answers(Program::Corners)),
            [] => Some(Mode::Compare { seed: SEED, traces: TRACES }),
            [seed] => Some(Mode::Compare { seed: seed.parse().ok()?, traces: TRACES }),
            [seed, traces] => Some(Mode::Compare { seed: seed.parse().ok()?, traces: traces.parse().ok()? }),
            _ => None,
        }
    }
}

fn alteration(words: &str) -> Option<Alteration> {
    Desk::new(SEED).alterations().into_iter().find(|alteration| alteration.words() == words)
}
