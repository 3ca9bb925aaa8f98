//! The calls on a panel of 64 heads, of either program: nanoseconds for each call.

use crate::measure::{Least, Times, in_turn};
use crate::unproved;
use humoraki::lent::{self, Panel, PanelMut, Ranges, RangesMut};
use humoraki::{Entry, MOST_HEADS, PANEL_ROOM};
use std::hint::black_box;

#[derive(Clone, Copy)]
pub enum Task {
    /// Add on a full panel, once for each head: 13.
    Refused,
    /// A panel filled range by range: as many adds as there are places.
    Filling,
    /// The ranges of each head of a full panel.
    Listing,
}

/// Both calls of one program.
#[derive(Clone, Copy)]
struct Program {
    add: fn(PanelMut, u32, u32, i32, i32) -> Result<(), u8>,
    head_ranges: fn(Panel, u32, RangesMut, &mut usize) -> Result<(), u8>,
}

const PROVED: Program = Program { add: lent::add, head_ranges: lent::head_ranges };
const UNPROVED: Program = Program { add: unproved::add, head_ranges: unproved::head_ranges };

/// A panel, and the lists for one head's ranges.
#[derive(PartialEq)]
struct Memory {
    entries: Vec<Entry>,
    addresses: Vec<u32>,
    held: [Vec<i32>; 2],
    times: Vec<u32>,
    into: [Vec<i32>; 2],
    into_times: Vec<u32>,
    count: usize,
}

/// Addresses of the heads, over the whole span.
fn head(place: usize) -> u32 {
    1 + 1023 * place as u32
}

impl Memory {
    /// A panel that holds nothing. Every other number is the same, so that one changed past the reported count shows.
    fn new() -> Self {
        const OLD: u8 = 0x5a;
        let values = || [(); 2].map(|()| vec![OLD.into(); PANEL_ROOM]);
        let numbers = || vec![OLD.into(); PANEL_ROOM];
        Memory {
            entries: (0..MOST_HEADS).map(|place| Entry { address: head(place), held: 0 }).collect(),
            addresses: numbers(),
            held: values(),
            times: numbers(),
            into: values(),
            into_times: numbers(),
            count: 0,
        }
    }

    fn add(&mut self, program: Program, address: u32, time: u32) -> Result<(), u8> {
        let [lows, highs] = &mut self.held;
        let ranges = RangesMut { times: &mut self.times, lows, highs };
        let panel = PanelMut { entries: &mut self.entries, addresses: &mut self.addresses, ranges };
        (program.add)(panel, address, time, -4, 4)
    }

    fn fill(&mut self, program: Program) -> Result<(), u8> {
        self.entries.iter_mut().for_each(|entry| entry.held = 0);
        (0..PANEL_ROOM).try_for_each(|place| self.add(program, head(place % MOST_HEADS), place as u32))
    }

    fn list(&mut self, program: Program, address: u32) -> Result<(), u8> {
        let [lows, highs] = &self.held;
        let ranges = Ranges { times: &self.times, lows, highs };
        let panel = Panel { entries: &self.entries, addresses: &self.addresses, ranges };
        let [lows, highs] = &mut self.into;
        let into = RangesMut { times: &mut self.into_times, lows, highs };
        (program.head_ranges)(panel, address, into, &mut self.count)
    }

    fn run(&mut self, task: Task, program: Program, place: usize) -> Result<(), u8> {
        match task {
            Task::Refused => self.add(program, head(place), u32::MAX),
            Task::Filling => self.fill(program),
            Task::Listing => self.list(program, head(place)),
        }
    }
}

/// One task with the least times so far. Each program has a panel of its own, which is full before it is measured.
pub struct PanelMeasure {
    pub task: Task,
    one: Memory,
    other: Memory,
    proved: Least,
    unproved: Least,
}

impl PanelMeasure {
    /// Ends the run where the two programs differ.
    pub fn new(task: Task) -> Self {
        let (mut one, mut other) = (Memory::new(), Memory::new());
        assert!(one.fill(PROVED) == Ok(()) && other.fill(UNPROVED) == Ok(()), "a panel cannot be filled");
        let runs = if matches!(task, Task::Filling) { 1 } else { MOST_HEADS };
        let due = if matches!(task, Task::Refused) { Err(13) } else { Ok(()) };
        for place in 0..runs {
            let answers = [one.run(task, PROVED, place), other.run(task, UNPROVED, place)];
            assert!(answers == [due; 2], "the answers differ: {answers:?}");
            assert!(one == other, "the slices differ");
        }
        PanelMeasure { task, one, other, proved: Least::new(runs), unproved: Least::new(runs) }
    }

    pub fn round(&mut self) {
        let PanelMeasure { task, one, other, proved, unproved } = self;
        let run = |memory: &mut Memory, program, place| {
            let _ = black_box(black_box(memory).run(*task, program, place));
        };
        in_turn(|| {
            proved.pass(|place| run(one, PROVED, place));
            unproved.pass(|place| run(other, UNPROVED, place));
        });
    }

    pub fn times(&self) -> Times {
        let calls = if matches!(self.task, Task::Filling) { PANEL_ROOM } else { MOST_HEADS };
        Times {
            proved: self.proved.nanoseconds() / calls as f64,
            unproved: self.unproved.nanoseconds() / calls as f64,
        }
    }
}
