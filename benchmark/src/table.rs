//! The measured times as a table in Markdown.

use crate::calls::Call;
use crate::group::Group;
use crate::measure::Times;
use crate::panels::{PanelMeasure, Task};
use crate::traces::Shape;

/// The places of 1,024 and 4,096 among the lengths.
const GROWTH_FROM: usize = 2;
const GROWTH_TO: usize = 4;

const NOTES: &str = "\
Nanoseconds for each range. Proved is the static library, unproved an ordinary Rust program of the same algorithm; \
both are compiled at -O3 for any x86-64, and gave the same for every trace before either was measured. \
They take turns, and a time is the least of many calls. At each length the traces have 16,384 ranges in all. \
The slices to be filled are allocated once and not cleared between calls; \
the two chains, 4,096 entries each, are on the stack of both programs, and each call sets them to 0, \
as Latest does with three lists for the ranges read from the end. \
Corners is asked after all ranges, and Preview for the last range behind all others. \
Segments, corners and the ranges of the latest run are counted at 4,096 ranges. \
Growth is the time for each range at 4,096 ranges over that at 1,024: 1 is linear. \
To Corners is the proved time of Preview over that of Corners, to Segment that of Latest over that of Segment.";

/// How the time for each range grows from 1,024 to 4,096 ranges: 1 where the time is linear.
fn growth(numbers: &[f64]) -> f64 {
    numbers[GROWTH_TO] / numbers[GROWTH_FROM]
}

fn shape_name(shape: Shape) -> &'static str {
    match shape {
        Shape::LongSegment => "one long segment",
        Shape::ShortSegments => "many short segments",
        Shape::FallingSegments => "many short segments, falling",
        Shape::LargeChains => "large chains",
    }
}

/// A number with a comma before its last three digits.
fn with_comma(n: usize) -> String {
    if n < 1000 { n.to_string() } else { format!("{},{:03}", n / 1000, n % 1000) }
}

fn print_row(heads: [&str; 3], numbers: &[f64], digits: usize, last: &str) {
    print!("| {} |", heads.join(" | "));
    for number in numbers {
        print!(" {number:.digits$} |");
    }
    println!(" {last} |");
}

fn print_group(group: &Group) {
    let (call, counted) = match group.call {
        Call::Segment => ("Segment", format!("segments: {}", with_comma(group.count))),
        Call::Corners => ("Corners", format!("corners: {}", with_comma(group.count))),
        Call::Preview => ("Preview", String::new()),
        Call::Latest => ("Latest", format!("ranges of the run: {}", with_comma(group.count))),
    };
    let proved = group.column(|t| t.proved);
    let unproved = group.column(|t| t.unproved);
    let ratio = group.column(Times::ratio);
    let grown = |numbers: &[f64]| format!("{:.2}", growth(numbers));
    let heads = [call, shape_name(group.shape), "proved, ns"];
    print_row(heads, &proved, 1, &grown(&proved));
    print_row(["", &counted, "unproved, ns"], &unproved, 1, &grown(&unproved));
    print_row(["", "", "ratio"], &ratio, 2, "");
}

/// The proved times of a call over those of another one on the same traces.
fn print_to(call: Call, name: &str, group: &Group, groups: &[Group]) {
    let other = groups.iter().find(|other| other.call == call && other.shape == group.shape);
    let others = other.expect("the other call on traces of this shape").column(|t| t.proved);
    let times = group.column(|t| t.proved);
    let ratio: Vec<f64> = times.iter().zip(&others).map(|(one, other)| one / other).collect();
    print_row(["", "", name], &ratio, 2, "");
}

fn largest(numbers: impl Iterator<Item = f64>) -> f64 {
    numbers.fold(0.0, f64::max)
}

pub fn print(groups: &[Group]) {
    println!("| call | trace | each range | 256 | 512 | 1,024 | 2,048 | 4,096 | growth |");
    println!("|---|---|---|--:|--:|--:|--:|--:|--:|");
    for group in groups {
        print_group(group);
        match group.call {
            Call::Preview => print_to(Call::Corners, "to Corners", group, groups),
            Call::Latest => print_to(Call::Segment, "to Segment", group, groups),
            Call::Segment | Call::Corners => {}
        }
    }
    let ratio = largest(groups.iter().flat_map(|g| g.column(Times::ratio)));
    let grown = largest(groups.iter().map(|g| growth(&g.column(|t| t.proved))));
    println!();
    println!("Largest ratio {ratio:.2}; largest growth of the proved library {grown:.2}.");
    println!();
    println!("{NOTES}");
}

const PANEL_NOTES: &str = "\
Nanoseconds for each call on a panel of 64 heads, measured as above. \
Both programs count the addresses in a tally of 65,536 counters on the stack, which each call sets to 0.";

fn task_name(task: Task) -> (&'static str, &'static str) {
    match task {
        Task::Refused => ("Add", "all 4,096 places held: 13"),
        Task::Filling => ("Add", "from none to all 4,096 places held, on average"),
        Task::Listing => ("Head ranges", "all 4,096 places held, 64 of them by the head"),
    }
}

pub fn print_panels(panels: &[PanelMeasure]) {
    println!();
    println!("| call | panel | proved, ns | unproved, ns | ratio |");
    println!("|---|---|--:|--:|--:|");
    for panel in panels {
        let (call, state) = task_name(panel.task);
        let times = panel.times();
        let [proved, unproved] = [times.proved, times.unproved].map(|number| with_comma(number.round() as usize));
        println!("| {call} | {state} | {proved} | {unproved} | {:.2} |", times.ratio());
    }
    println!();
    println!("{PANEL_NOTES}");
}
