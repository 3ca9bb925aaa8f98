//! The output that the programs `segment_tests` and `corner_tests` must have, found without the library.
//!
//! Both take trials from standard input and then long traces by formula, and write what a call answers to each. Here
//! the answers are those of brute force: by trying all lines, and where a fit has more ranges than that can be done for
//! in a short time, by clipping.

mod corners;
mod digest;
mod segment;
mod shapes;
mod trials;

use crate::clipping;
use crate::line::Line;
use crate::segments::Fitter;
use crate::trace::Range;
use crate::trying;
use trials::Trial;

/// A program whose output is stored.
#[derive(Clone, Copy)]
pub enum Program {
    Segment,
    Corners,
}

/// All lines are tried on up to so many ranges: a swing and the range that closes it. Only of a bowl, of a waist and of
/// full ranges are there more in a fit.
const TRIED: usize = 101;

const FITTER: Fitter = corners_of_a_run;

fn corners_of_a_run(before: &[Line], ranges: &[Range]) -> Vec<Line> {
    if ranges.len() <= TRIED { trying::corners(ranges) } else { clipping::corners(before, ranges) }
}

/// All that the program prints for these trials; or a line that is no trial.
pub fn output(program: Program, trials: &str) -> Result<String, String> {
    let (told, long) = match program {
        Program::Segment => (segment::trial as fn(&Trial) -> String, segment::long()),
        Program::Corners => (corners::trial as fn(&Trial) -> String, corners::long()),
    };
    let mut output = String::new();
    for line in trials.lines() {
        output += &format!("{line}\n");
        if !line.starts_with('#') {
            output += &told(&Trial::from_line(line).ok_or(line)?);
        }
    }
    Ok(output + &long)
}

/// The entries that are written of so many: the first ones and the last.
fn shown<T>(entries: &[T], first: usize) -> impl Iterator<Item = (usize, &T)> {
    let last = entries.len().saturating_sub(1);
    entries.iter().enumerate().filter(move |(place, _)| *place < first || *place == last)
}
