//! Every set of faults in what Write, Segment, Corners and Latest are handed, so that the order of the refusals is
//! tried; and in the mirror.

use crate::answers::{self, borrowed};
use crate::calls::{columns, lines, write};
use crate::damage::outside;
use crate::desk::Desk;
use crate::difference::Outcome;
use crate::random::Random;
use crate::room::Room;
use crate::rounds::mirrors;
use crate::segments::BY_TRYING;
use crate::trace::{Lists, MOST_RANGES, Range, Service};
use crate::traces::addresses;
use crate::traces::long::full;
use crate::traces::services::{no_direction, no_step, small_service};
use crate::traces::small::small_ranges;
use crate::trends;
use humoraki::{CORNER_ROOM, SEGMENT_ROOM, WRITE_ROOM};

/// What may be wrong with one range.
#[derive(Clone, Copy, PartialEq)]
pub enum RangeFault {
    Low,
    High,
    LowAboveHigh,
    TimeNotRising,
}

pub const RANGE_FAULTS: [RangeFault; 4] =
    [RangeFault::Low, RangeFault::High, RangeFault::LowAboveHigh, RangeFault::TimeNotRising];

#[derive(Clone, Copy, PartialEq)]
enum Fault {
    TooMany,
    InRange(RangeFault),
    LengthsDiffer,
    ShortSlice,
    Address,
    Level,
    Direction,
    Step,
    Prefix,
}

/// Faults in ranges come before the lengths are changed, so that there is a range to spoil.
const FAULTS: [Fault; 12] = [
    Fault::TooMany,
    Fault::InRange(RangeFault::Low),
    Fault::InRange(RangeFault::High),
    Fault::InRange(RangeFault::LowAboveHigh),
    Fault::InRange(RangeFault::TimeNotRising),
    Fault::LengthsDiffer,
    Fault::ShortSlice,
    Fault::Address,
    Fault::Level,
    Fault::Direction,
    Fault::Step,
    Fault::Prefix,
];

/// How often each set of faults is tried.
const ROUNDS: usize = 10;

/// What is handed to the four calls.
struct Handed {
    address: u32,
    service: Service,
    k: usize,
    lists: Lists,
    short: bool,
}

pub fn compare(desk: &mut Desk) -> Outcome {
    for set in 0..1 << FAULTS.len() {
        let faults = || (0..FAULTS.len()).filter(|bit| set >> bit & 1 == 1).map(|bit| FAULTS[bit]);
        let many = faults().any(|fault| fault == Fault::TooMany);
        for _ in 0..if many { 1 } else { ROUNDS } {
            let mut handed = sound(many, &mut desk.random);
            for fault in faults() {
                spoil(&mut handed, fault, &mut desk.random);
            }
            four_calls(desk, &handed)?;
        }
    }
    Ok(())
}

fn sound(many: bool, random: &mut Random) -> Handed {
    let ranges = if many { full(MOST_RANGES + 1 + random.below(40)) } else { some_ranges(random) };
    Handed {
        address: addresses::address(random),
        service: small_service(random),
        k: 1 + random.below(ranges.len()),
        lists: Lists::of(&ranges),
        short: false,
    }
}

/// Two or more.
pub fn some_ranges(random: &mut Random) -> Vec<Range> {
    loop {
        let (ranges, _) = small_ranges(random);
        if ranges.len() > 1 {
            return ranges;
        }
    }
}

/// Adds a fault; those in ranges are in any range, so that an earlier one may hide a later one.
fn spoil(handed: &mut Handed, fault: Fault, random: &mut Random) {
    let lists = &mut handed.lists;
    let place = random.below(lists.times.len().max(1));
    match fault {
        Fault::TooMany => {}
        Fault::ShortSlice => handed.short = true,
        Fault::LengthsDiffer => change_length(lists, random),
        Fault::Address => handed.address = addresses::outside(random),
        Fault::Level => handed.service.level = outside(random),
        Fault::Direction => handed.service.direction = no_direction(random),
        Fault::Step => handed.service.step = no_step(random),
        Fault::InRange(fault) => spoil_range(lists, place, fault, random),
        Fault::Prefix => {
            let count = lists.times.len();
            handed.k = random.pick(&[0, 0, count + 1, count + 5, usize::MAX]);
        }
    }
}

pub fn spoil_range(lists: &mut Lists, place: usize, fault: RangeFault, random: &mut Random) {
    match fault {
        RangeFault::Low => lists.lows[place] = outside(random),
        RangeFault::High => lists.highs[place] = outside(random),
        RangeFault::LowAboveHigh => lists.lows[place] = lists.highs[place].saturating_add(1),
        RangeFault::TimeNotRising => lists.times[place] = lists.times[place.saturating_sub(1)],
    }
}

/// One or two of the lists empty, one shorter or one longer.
pub fn change_length(lists: &mut Lists, random: &mut Random) {
    let count = random.pick(&[0, lists.times.len().saturating_sub(1), lists.times.len() + 1]);
    let changed = 1 + random.below(6);
    if changed & 1 != 0 {
        lists.times.resize(count, 0);
    }
    if changed & 2 != 0 {
        lists.lows.resize(count, 0);
    }
    if changed & 4 != 0 {
        lists.highs.resize(count, 0);
    }
}

fn four_calls(desk: &mut Desk, handed: &Handed) -> Outcome {
    let Handed { address, service, k, lists, short } = handed;
    desk.tally.add("sets of faults in lists", 1);
    let room = |places, least, random: &mut Random| match short {
        true => Room::too_short(places, least, random),
        false => Room::enough(),
    };
    let for_write = room(write::PLACES, WRITE_ROOM, &mut desk.random);
    let expected = answers::write(*address, *service, lists);
    desk.write((*address, *service, lists), borrowed(&expected), &for_write)?;
    let for_segment = room(columns::PLACES, SEGMENT_ROOM, &mut desk.random);
    let expected = answers::segment(*service, lists, BY_TRYING);
    desk.segment(*service, lists, borrowed(&expected), &for_segment)?;
    mirrors::segment(desk, *service, lists, borrowed(&expected))?;
    let for_corners = room(lines::PLACES, CORNER_ROOM, &mut desk.random);
    let expected = answers::corners(*k, lists, BY_TRYING);
    desk.corners(*k, lists, borrowed(&expected), &for_corners)?;
    mirrors::corners(desk, *k, lists, borrowed(&expected))?;
    let for_latest = room(lines::PLACES, CORNER_ROOM, &mut desk.random);
    let expected = answers::latest(*service, lists, trends::BY_TRYING);
    desk.latest((*service, lists), borrowed(&expected), &for_latest)?;
    mirrors::latest(desk, *service, lists, borrowed(&expected))
}
