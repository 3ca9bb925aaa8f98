//! Every set of faults in what Add and Head ranges are handed, with each way to spoil a panel, so that the order of the
//! refusals is tried.

use crate::answers::{self, borrowed};
use crate::calls::head_ranges::PLACES;
use crate::calls::number;
use crate::damage::outside;
use crate::desk::Desk;
use crate::difference::Outcome;
use crate::panel::Panel;
use crate::panels::heads::unknown;
use crate::panels::sound::{Fill, sound_panel};
use crate::panels::spoils::{SPOILS, Spoil};
use crate::random::Random;
use crate::room::Room;
use crate::trace::Range;
use humoraki::PANEL_ROOM;

#[derive(Clone, Copy, PartialEq)]
enum Fault {
    Crowded,
    TooManyCommon,
    TimeNotRising,
    LowAboveHigh,
    High,
    Low,
    Unknown,
    ShortList,
    ShortRoom,
}

const FAULTS: [Fault; 9] = [
    Fault::Crowded,
    Fault::TooManyCommon,
    Fault::TimeNotRising,
    Fault::LowAboveHigh,
    Fault::High,
    Fault::Low,
    Fault::Unknown,
    Fault::ShortList,
    Fault::ShortRoom,
];

/// How often each set of faults is tried on a panel that is not spoiled.
const ROUNDS: usize = 4;

const SETS: usize = 1 << FAULTS.len();

/// What is handed to both calls.
struct Handed {
    panel: Panel,
    address: u32,
    range: Range,
    short_room: bool,
}

pub fn compare(desk: &mut Desk) -> Outcome {
    for set in 0..SETS {
        for _ in 0..ROUNDS {
            let handed = faulty(set, &mut desk.random);
            desk.tally.add("sets of faults on a panel", 1);
            both_calls(desk, &handed)?;
        }
    }
    for (name, spoil) in SPOILS {
        desk.tally.add(name, 0);
        // Without more common places than there are, which alone would be enough for 14.
        for set in (0..SETS).filter(|set| set & 0b10 == 0) {
            spoiled(desk, set, (name, spoil))?;
        }
    }
    Ok(())
}

fn spoiled(desk: &mut Desk, set: usize, (name, spoil): (&str, Spoil)) -> Outcome {
    let mut handed = faulty(set, &mut desk.random);
    spoil(&mut handed.panel, &mut desk.random);
    if desk.random.one_in(8) && !handed.panel.entries.is_empty() {
        desk.random.pick(&SPOILS).1(&mut handed.panel, &mut desk.random);
    }
    let refused = number(&answers::head_ranges(&handed.panel, handed.address)) == 14;
    desk.tally.add(name, refused as usize);
    both_calls(desk, &handed)
}

/// A panel, an address and a range with a set of faults.
fn faulty(set: usize, random: &mut Random) -> Handed {
    let has = |fault: Fault| FAULTS.iter().enumerate().any(|(bit, of)| *of == fault && set >> bit & 1 == 1);
    let fill = match (has(Fault::TooManyCommon), has(Fault::Crowded)) {
        (true, _) => Fill::TooMany,
        (_, true) => Fill::All,
        _ => random.pick(&[Fill::Few, Fill::Few, Fill::Some]),
    };
    let panel = sound_panel(fill, random);
    let address = random.pick(&panel.entries).address;
    let range = Range { time: next_time(&panel, address), low: 0, high: 4 };
    let mut handed = Handed { panel, address, range, short_room: false };
    for fault in FAULTS.into_iter().filter(|fault| has(*fault)) {
        add_fault(&mut handed, fault, random);
    }
    handed
}

/// A time just after the last of the head's ranges, wherever the others are.
fn next_time(panel: &Panel, address: u32) -> u32 {
    panel.ranges_of(address).last().map_or(0, |range| range.time.saturating_add(1))
}

fn add_fault(handed: &mut Handed, fault: Fault, random: &mut Random) {
    let Handed { panel, address, range, short_room } = handed;
    match fault {
        Fault::Crowded | Fault::TooManyCommon => {}
        Fault::TimeNotRising => range.time = range.time.saturating_sub(1 + random.below(2) as u32),
        Fault::LowAboveHigh => range.low = range.high + 1,
        Fault::High => range.high = outside(random),
        Fault::Low => range.low = outside(random),
        Fault::Unknown => {
            let heads: Vec<u32> = panel.entries.iter().map(|entry| entry.address).collect();
            *address = unknown(&heads, random);
        }
        Fault::ShortList => {
            let any = random.below(PANEL_ROOM);
            let length = random.pick(&[PANEL_ROOM - 1, PANEL_ROOM - 1, any, 0]);
            shorten(panel, random.below(4), length);
        }
        Fault::ShortRoom => *short_room = true,
    }
}

/// Cuts one of the four lists of a panel.
pub fn shorten(panel: &mut Panel, list: usize, length: usize) {
    match list {
        0 => panel.addresses.truncate(length),
        1 => panel.lists.times.truncate(length),
        2 => panel.lists.lows.truncate(length),
        _ => panel.lists.highs.truncate(length),
    }
}

fn both_calls(desk: &mut Desk, handed: &Handed) -> Outcome {
    let Handed { panel, address, range, short_room } = handed;
    let expected = answers::add(panel, *address, range);
    desk.add((panel, *address, range), borrowed(&expected))?;
    let expected = answers::head_ranges(panel, *address);
    let room = match short_room {
        true => Room::too_short(PLACES, PANEL_ROOM, &mut desk.random),
        false => Room::enough(),
    };
    desk.head_ranges((panel, *address), borrowed(&expected), &room)
}
