//! Demand 3, tried on every cutting of a small trace into consecutive runs. A cutting is where its runs end.

use crate::trace::Range;
use crate::trying::has_line;

/// Whether two ranges of the run leave no line for the further range.
pub fn closed_by_three(run: &[Range], further: &Range) -> bool {
    let no_line = |place: usize, later: usize| !has_line(&[run[place], run[later], *further]);
    (0..run.len()).any(|place| (place + 1..run.len()).any(|later| no_line(place, later)))
}

/// Whether the runs that end there are a split, and no split has fewer runs or is ahead after as many.
pub fn no_split_is_better(ranges: &[Range], ends: &[usize]) -> bool {
    let lines = Lines::of(ranges);
    let not_better = |split: &Vec<usize>| {
        let mut both = split.iter().zip(ends);
        split.len() >= ends.len() && both.all(|(other, end)| end >= other)
    };
    let whole = ends.last().copied().unwrap_or(0) == ranges.len();
    let mut splits = cuttings(ranges.len()).into_iter().filter(|cutting| lines.make_split(cutting));
    whole && lines.make_split(ends) && splits.all(|split| not_better(&split))
}

/// For each run of a trace whether a line fits it, by its begin and the number of ranges after the first.
struct Lines(Vec<Vec<bool>>);

impl Lines {
    fn of(ranges: &[Range]) -> Lines {
        let from = |begin: usize| (begin..ranges.len()).map(|last| has_line(&ranges[begin..=last])).collect();
        Lines((0..ranges.len()).map(from).collect())
    }

    fn make_split(&self, ends: &[usize]) -> bool {
        let begins = [0].iter().chain(ends);
        begins.zip(ends).all(|(begin, end)| self.0[*begin][end - begin - 1])
    }
}

/// Every cutting of so many ranges: each subset of the places between them.
fn cuttings(count: usize) -> Vec<Vec<usize>> {
    if count == 0 {
        return vec![Vec::new()];
    }
    let cutting = |cuts: usize| {
        let inside = (1..count).filter(|end| cuts >> (end - 1) & 1 == 1);
        inside.chain([count]).collect()
    };
    (0..1 << (count - 1)).map(cutting).collect()
}
