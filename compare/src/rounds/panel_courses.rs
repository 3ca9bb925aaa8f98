//! Long random courses of adds on one panel after the other, each lent as the last call left it, with spoiled copies of
//! the panel and the ranges of heads in between.

use crate::answers::{self, borrowed};
use crate::damage::outside;
use crate::desk::Desk;
use crate::difference::{Difference, Outcome};
use crate::panel::Panel;
use crate::panels::course::Course;
use crate::panels::heads::{heads, some_heads, unknown};
use crate::panels::sound::empty_panel;
use crate::panels::spoils::SPOILS;
use crate::random::Random;
use crate::room::Room;
use crate::trace::{LARGEST_VALUE, LAST_TIME, LEAST_VALUE, Range};
use crate::traces::services::small_service;

/// How many heads there are, after how many adds the panel is filled up, and whether most of these are for one head.
const LONG: [(usize, usize, bool); 5] =
    [(1, 2000, false), (2, 1000, true), (20, 2500, true), (64, 4200, false), (64, 3000, true)];

/// Short courses: how many, and of how many adds at most.
const COURSES: usize = 60;
const ADDS: usize = 250;

/// One in so many steps of a course asks for the ranges of a head, and one is on a spoiled copy.
const OTHERS: usize = 24;

/// One in so many ranges is to be refused for something.
const FAULTS: usize = 10;

pub fn compare(desk: &mut Desk) -> Outcome {
    for (count, adds, greedy) in LONG {
        let mut walk = Walk::new(heads(count, &mut desk.random), desk);
        walk.adds(desk, adds, greedy)?;
        walk.fill_up(desk)?;
        walk.every_head(desk)?;
        desk.tally.raise("panels: most places held", walk.panel.held() as usize);
    }
    short(desk, COURSES)
}

/// So many short courses.
pub fn short(desk: &mut Desk, courses: usize) -> Outcome {
    for _ in 0..courses {
        let mut walk = Walk::new(some_heads(&mut desk.random), desk);
        let (adds, greedy) = (desk.random.below(ADDS), desk.random.one_in(2));
        walk.adds(desk, adds, greedy)?;
        walk.every_head(desk)?;
    }
    Ok(())
}

/// A course with the panel that it has led to.
struct Walk {
    course: Course,
    panel: Panel,
}

impl Walk {
    fn new(heads: Vec<u32>, desk: &mut Desk) -> Walk {
        desk.tally.add("panels: courses of adds", 1);
        Walk { course: Course::new(&heads), panel: empty_panel(&heads, 0, &mut desk.random) }
    }

    /// So many adds; where it is greedy, most are for the first head.
    fn adds(&mut self, desk: &mut Desk, adds: usize, greedy: bool) -> Outcome {
        for _ in 0..adds {
            let first = greedy && !desk.random.one_in(4);
            let head = if first { self.course.heads()[0] } else { desk.random.pick(self.course.heads()) };
            let range = some_range(self.course.own(head).next_back(), &mut desk.random);
            let stray = desk.random.one_in(3 * FAULTS);
            let address = if stray { unknown(self.course.heads(), &mut desk.random) } else { head };
            self.add(desk, address, &range)?;
            self.others(desk)?;
        }
        Ok(())
    }

    /// Adds to each head until there is no place for it.
    fn fill_up(&mut self, desk: &mut Desk) -> Outcome {
        for head in self.course.heads().to_vec() {
            let mut time = self.course.own(head).next_back().map_or(0, |range| range.time);
            let mut answer = Ok(());
            while answer != Err(13) {
                time += 1;
                let range = Range { time, low: 0, high: 4 };
                answer = self.course.answer(head, &range);
                self.add(desk, head, &range)?;
            }
        }
        Ok(())
    }

    /// Add, by the places of the panel and by what was accepted before.
    fn add(&mut self, desk: &mut Desk, address: u32, range: &Range) -> Outcome {
        let expected = answers::add(&self.panel, address, range);
        let by_course = self.course.answer(address, range);
        if by_course != expected.as_ref().map(|_| ()).map_err(|number| *number) {
            return self.disagreement("the number is another by the ranges accepted before");
        }
        desk.add((&self.panel, address, range), borrowed(&expected))?;
        desk.tally.add("panels: adds in courses", 1);
        if let Ok(panel) = expected {
            self.course.accept(address, range);
            self.panel = panel;
        }
        Ok(())
    }

    /// What else may be asked of the panel at any time.
    fn others(&mut self, desk: &mut Desk) -> Outcome {
        if desk.random.one_in(OTHERS) {
            let stray = desk.random.one_in(4);
            let heads = self.course.heads();
            let address = if stray { unknown(heads, &mut desk.random) } else { desk.random.pick(heads) };
            let expected = answers::head_ranges(&self.panel, address);
            desk.head_ranges((&self.panel, address), borrowed(&expected), &Room::enough())?;
        }
        if desk.random.one_in(OTHERS) {
            let (_, spoil) = desk.random.pick(&SPOILS);
            let mut spoiled = self.panel.clone();
            spoil(&mut spoiled, &mut desk.random);
            let (address, range) =
                (desk.random.pick(self.course.heads()), Range { time: LAST_TIME, low: 0, high: 4 });
            let expected = answers::add(&spoiled, address, &range);
            desk.add((&spoiled, address, &range), borrowed(&expected))?;
        }
        Ok(())
    }

    /// The ranges and segments of each head are those of its own accepted ranges, and the panel holds no others.
    fn every_head(&self, desk: &mut Desk) -> Outcome {
        if !self.course.is_on(&self.panel) {
            return self.disagreement("the panel does not hold what was accepted");
        }
        for head in self.course.heads() {
            let service = small_service(&mut desk.random);
            let own: Vec<Range> = self.course.own(*head).copied().collect();
            desk.head_segments(&self.panel, *head, &own, service)?;
            desk.tally.add("panels: heads segmented", 1);
        }
        Ok(())
    }

    fn disagreement(&self, given: &str) -> Outcome {
        Err(Box::new(Difference {
            call: format!("the brute force itself, on a panel\n{}", self.panel.in_words()),
            ranges: String::new(),
            expected: "agreement with the course of adds".to_string(),
            given: given.to_string(),
            file: Vec::new(),
        }))
    }
}

/// A range for a head whose last range is this, at times with a fault or two.
fn some_range(last: Option<&Range>, random: &mut Random) -> Range {
    let last = last.map_or(random.pick(&[0, 0, 100, LAST_TIME - 90_000]), |range| range.time);
    let low = random.between(-20, 20) as i32;
    let mut range = Range { time: last.saturating_add(1 + random.below(40) as u32), low, high: low };
    range.high += random.between(0, 30) as i32;
    if random.one_in(40) {
        (range.low, range.high) =
            random.pick(&[(LEAST_VALUE, low), (low, LARGEST_VALUE), (LEAST_VALUE, LARGEST_VALUE)]);
    }
    while random.one_in(FAULTS) {
        match random.below(4) {
            0 => range.low = outside(random),
            1 => range.high = outside(random),
            2 => range.low = range.high.saturating_add(1),
            _ => range.time = random.pick(&[last, last, last.saturating_sub(1), 0]),
        }
    }
    range
}
