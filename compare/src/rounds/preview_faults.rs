//! Every set of faults in what Preview is handed, in the lists and in the range that is not in them, on no ranges, on a
//! few, on full lists and on longer ones, so that the order of the refusals is tried, in the mirror too.

use super::list_faults::{RANGE_FAULTS, change_length, some_ranges, spoil_range};
use crate::answers::{self, borrowed};
use crate::damage::outside;
use crate::desk::Desk;
use crate::difference::Outcome;
use crate::random::Random;
use crate::rounds::mirrors;
use crate::segments::BY_TRYING;
use crate::trace::{Lists, MOST_RANGES, Range, Service};
use crate::traces::long::full;
use crate::traces::services::{no_direction, no_step, small_service};

/// The bits of a set: the faults of some range in the lists, those of the new range, and four more.
const EARLIER: usize = 0;
const NEW: usize = EARLIER + RANGE_FAULTS.len();
const LENGTHS_DIFFER: usize = NEW + RANGE_FAULTS.len();
const LEVEL: usize = LENGTHS_DIFFER + 1;
const DIRECTION: usize = LEVEL + 1;
const STEP: usize = DIRECTION + 1;
const SETS: usize = 1 << (STEP + 1);

#[derive(Clone, Copy)]
enum Size {
    Empty,
    Few,
    Full,
    TooMany,
}

/// How many ranges the lists have, in words, and how often each set of faults is tried on so many.
const SIZES: [(Size, &str, usize); 4] = [
    (Size::Empty, "no ranges", 1),
    (Size::Few, "a few ranges", 10),
    (Size::Full, "4,096 ranges", 1),
    (Size::TooMany, "more ranges", 1),
];

/// What 4, 5 and 6 are given for.
const BEFORE: &str = "what is before the range";
const ITSELF: &str = "the range";

/// What has to be seen: the numbers, and what they are given for or what size the lists have.
const SEEN: [(u8, &str); 14] = [
    (4, BEFORE),
    (4, ITSELF),
    (5, BEFORE),
    (5, ITSELF),
    (6, BEFORE),
    (6, ITSELF),
    (4, SIZES[0].1),
    (5, SIZES[0].1),
    (7, SIZES[2].1),
    (7, SIZES[3].1),
    (10, SIZES[0].1),
    (10, SIZES[1].1),
    (10, SIZES[2].1),
    (10, SIZES[3].1),
];

/// What is handed to Preview.
struct Handed {
    service: Service,
    lists: Lists,
    range: Range,
}

pub fn compare(desk: &mut Desk) -> Outcome {
    for (number, part) in SEEN {
        desk.tally.add(&count_name(number, part), 0);
    }
    for (size, name, rounds) in SIZES {
        for set in 0..SETS {
            for _ in 0..rounds {
                let handed = faulty(size, set, &mut desk.random);
                one(desk, &handed, name)?;
            }
        }
    }
    Ok(())
}

fn count_name(number: u8, part: &str) -> String {
    format!("previews refused with {number}: {part}")
}

/// Sound lists and a range to follow them, and then these faults.
fn faulty(size: Size, set: usize, random: &mut Random) -> Handed {
    let has = |bit: usize| set >> bit & 1 == 1;
    let mut longer = Lists::of(&sound(size, random));
    let new = longer.times.len() - 1;
    for (place, fault) in RANGE_FAULTS.into_iter().enumerate() {
        if has(EARLIER + place) && new > 0 {
            spoil_range(&mut longer, random.below(new), fault, random);
        }
        if has(NEW + place) {
            spoil_range(&mut longer, new, fault, random);
        }
    }
    let ranges = longer.ranges();
    let mut lists = Lists::of(&ranges[..new]);
    if has(LENGTHS_DIFFER) {
        change_length(&mut lists, random);
    }
    let mut service = small_service(random);
    if has(LEVEL) {
        service.level = outside(random);
    }
    if has(DIRECTION) {
        service.direction = no_direction(random);
    }
    if has(STEP) {
        service.step = no_step(random);
    }
    Handed { service, lists, range: ranges[new] }
}

/// The ranges of the lists, and one more.
fn sound(size: Size, random: &mut Random) -> Vec<Range> {
    match size {
        Size::Empty => some_ranges(random)[..1].to_vec(),
        Size::Few => some_ranges(random),
        Size::Full => full(MOST_RANGES + 1),
        Size::TooMany => full(MOST_RANGES + 2 + random.below(40)),
    }
}

fn one(desk: &mut Desk, handed: &Handed, size: &str) -> Outcome {
    let Handed { service, lists, range } = handed;
    let expected = answers::preview(*service, lists, range, BY_TRYING);
    desk.tally.add("sets of faults in a preview", 1);
    if let Err(number) = expected {
        let part = match number {
            7 | 10 => size,
            _ if lists.times.is_empty() => size,
            _ if answers::segment(*service, lists, BY_TRYING).is_err() => BEFORE,
            _ => ITSELF,
        };
        desk.tally.add(&count_name(number, part), 1);
    }
    desk.preview((*service, lists, range), borrowed(&expected))?;
    mirrors::preview(desk, (*service, lists, range), borrowed(&expected))
}
