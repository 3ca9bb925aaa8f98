//! Measures the proved library beside an unproved program of the same algorithm, in one run.

mod agreement;
mod buffers;
mod calls;
mod group;
mod measure;
mod panels;
mod random;
mod table;
mod traces;
mod unproved;

use buffers::Buffers;
use calls::Call;
use group::Group;
use panels::{PanelMeasure, Task};
use traces::Shape;

/// Each measure has so many rounds, spread over the run, so that no busy moment of the machine spoils one.
const ROUNDS: usize = 20;

/// The calls, each on these shapes. Only Segment asks for the direction again and again, once in each segment.
const MEASURED: [(Call, &[Shape]); 4] = [
    (Call::Segment, &[Shape::LongSegment, Shape::ShortSegments, Shape::FallingSegments, Shape::LargeChains]),
    (Call::Corners, &[Shape::LongSegment, Shape::ShortSegments, Shape::LargeChains]),
    (Call::Preview, &[Shape::LongSegment, Shape::ShortSegments, Shape::LargeChains]),
    (Call::Latest, &[Shape::LongSegment, Shape::ShortSegments, Shape::LargeChains]),
];

fn main() {
    let mut groups = Vec::new();
    for (call, shapes) in MEASURED {
        groups.extend(shapes.iter().map(|shape| Group::new(call, *shape)));
    }
    let mut panels = [Task::Refused, Task::Filling, Task::Listing].map(PanelMeasure::new);
    let mut one = Buffers::new();
    let mut other = Buffers::new();
    for _ in 0..ROUNDS {
        for group in &mut groups {
            group.round(&mut one, &mut other);
        }
        panels.iter_mut().for_each(PanelMeasure::round);
    }
    table::print(&groups);
    table::print_panels(&panels);
}
