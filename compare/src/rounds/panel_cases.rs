//! The worked cases of the scope on panels: what is expected here is held to the scope before the library is held to
//! it.

use crate::answers::{self, borrowed};
use crate::desk::Desk;
use crate::difference::{Difference, Outcome};
use crate::panel::{PLACES, Panel};
use crate::room::Room;
use crate::trace::{Lists, Range};
use humoraki::Entry;

pub fn compare(desk: &mut Desk) -> Outcome {
    let panel = four(2, 2);
    add(desk, &panel, (7, 25, 1, 3), Ok(&[(7, 3), (9, 2)]))?;
    add(desk, &panel, (7, 20, 1, 3), Err(6))?;
    add(desk, &panel, (65_543, 25, 4, 3), Err(12))?;
    add(desk, &beside(2079), (1, 1, 0, 4), Ok(&[(1, 33), (2, 2079)]))?;
    add(desk, &beside(2080), (1, 1, 0, 4), Err(13))?;
    add(desk, &beside(2080), (1, 0, 0, 4), Err(6))?;
    add(desk, &beside(2081), (1, 1, 0, 4), Err(14))?;
    add(desk, &started(&[]), (1, 1, 0, 4), Err(14))?;
    add(desk, &started(&Vec::from_iter(1..=64)), (65, 1, 0, 4), Err(12))?;
    add(desk, &started(&Vec::from_iter(1..=65)), (65, 1, 0, 4), Err(14))?;
    add(desk, &started(&[7, 9, 7]), (9, 1, 0, 4), Err(14))?;
    add(desk, &started(&[0]), (0, 1, 0, 4), Err(14))?;
    add(desk, &started(&[65_543]), (65_543, 1, 0, 4), Err(14))?;
    add(desk, &four(1, 3), (8, 25, 1, 3), Err(14))?;
    add(desk, &four(u32::MAX, u32::MAX), (8, 25, 1, 3), Err(14))?;
    head_ranges(desk, &panel, 7, Ok(&[10, 20]))?;
    head_ranges(desk, &panel, 8, Err(12))?;
    head_ranges(desk, &four(1, 3), 7, Err(14))
}

/// Lists of 4,096 entries that begin with these addresses and times; every range is from 0 to 4.
fn panel(entries: &[(u32, u32)], mut addresses: Vec<u32>, mut times: Vec<u32>) -> Panel {
    addresses.resize(PLACES, 0);
    times.resize(PLACES, 0);
    Panel {
        entries: entries.iter().map(|&(address, held)| Entry { address, held }).collect(),
        addresses,
        lists: Lists { times, lows: vec![0; PLACES], highs: vec![4; PLACES] },
    }
}

/// Ranges of head 7 at 10 and 20, and of head 9 at 15 and 30, in order of time, with these counts.
fn four(of_7: u32, of_9: u32) -> Panel {
    panel(&[(7, of_7), (9, of_9)], vec![7, 9, 7, 9], vec![10, 15, 20, 30])
}

/// These heads, which hold nothing.
fn started(heads: &[u32]) -> Panel {
    let entries: Vec<(u32, u32)> = heads.iter().map(|&address| (address, 0)).collect();
    panel(&entries, Vec::new(), Vec::new())
}

/// Head 1 holds 32 ranges, head 2 so many, all at time 0.
fn beside(count: u32) -> Panel {
    let addresses = [vec![1; 32], vec![2; count as usize]].concat();
    panel(&[(1, 32), (2, count)], addresses, Vec::new())
}

/// The entries after it, or the number of the refusal. The range is the one at the place after those held before.
fn add(
    desk: &mut Desk,
    panel: &Panel,
    (address, time, low, high): (u32, u32, i32, i32),
    scope: Result<&[(u32, u32)], u8>,
) -> Outcome {
    let range = Range { time, low, high };
    let expected = answers::add(panel, address, &range);
    let entries = |after: &Panel| -> Vec<(u32, u32)> {
        after.entries.iter().map(|entry| (entry.address, entry.held)).collect()
    };
    let found = expected.as_ref().map(|after| (entries(after), at_place(after, panel.held() as usize)));
    let scope = scope.as_ref().map(|entries| (entries.to_vec(), (address, range)));
    agree(format!("{scope:?}"), format!("{found:?}"), panel)?;
    desk.tally.add("worked cases of the scope", 1);
    desk.add((panel, address, &range), borrowed(&expected))
}

fn at_place(panel: &Panel, place: usize) -> (u32, Range) {
    let Lists { times, lows, highs } = &panel.lists;
    (panel.addresses[place], Range { time: times[place], low: lows[place], high: highs[place] })
}

/// The times of the head's ranges, or the number of the refusal.
fn head_ranges(desk: &mut Desk, panel: &Panel, address: u32, scope: Result<&[u32], u8>) -> Outcome {
    let expected = answers::head_ranges(panel, address);
    let scope = scope.map(|times| {
        let range = |time: &u32| Range { time: *time, low: 0, high: 4 };
        times.iter().map(range).collect::<Vec<Range>>()
    });
    agree(format!("{scope:?}"), format!("{expected:?}"), panel)?;
    desk.tally.add("worked cases of the scope", 1);
    desk.head_ranges((panel, address), borrowed(&expected), &Room::enough())
}

fn agree(expected: String, given: String, panel: &Panel) -> Outcome {
    if expected == given {
        return Ok(());
    }
    Err(Box::new(Difference {
        call: format!("the brute force itself, against the scope, on a panel\n{}", panel.in_words()),
        ranges: String::new(),
        expected,
        given,
        file: Vec::new(),
    }))
}
