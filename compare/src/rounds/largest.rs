//! The trial cases on size: 4,096 ranges are accepted and 4,097 refused, as a file and as lists, and what comes after
//! the largest file and the header of one field more, or after 65,536 bytes, does not matter.

use crate::answers::{self, borrowed};
use crate::desk::Desk;
use crate::difference::Outcome;
use crate::file;
use crate::room::Room;
use crate::segments::BY_CLIPPING;
use crate::trace::{
    EVERY_SECOND, LARGEST_ADDRESS, LARGEST_STEP, LARGEST_VALUE, LEAST_VALUE, Lists, MOST_RANGES, Range, Service,
    Trace,
};
use crate::traces::long::full;
use crate::trends;
use humoraki::WRITE_ROOM;

/// What the report program reads of standard input at most.
const INPUT: usize = 65_536;

/// Each length of a header: the largest address of one byte and of two, on a rising trace and on a falling one, without
/// a step and with the largest. The last is the longest.
type Head = (u32, Service);

fn heads() -> Vec<Head> {
    let services = [Service::rising(0), Service::falling(0)];
    let with_steps = [EVERY_SECOND, LARGEST_STEP].into_iter().flat_map(|step| services.map(|of| of.every(step)));
    with_steps.flat_map(|service| [(255, service), (LARGEST_ADDRESS, service)]).collect()
}

/// The scope's least length for Write, and so the length of the largest file.
const LARGEST: usize = 61_463;
const _: () = assert!(WRITE_ROOM == LARGEST);

/// How many other ends are tried for the largest file.
const CUTS: usize = 300;

pub fn compare(desk: &mut Desk) -> Outcome {
    for count in [MOST_RANGES - 1, MOST_RANGES, MOST_RANGES + 1, MOST_RANGES + 2, 2 * MOST_RANGES] {
        as_lists(desk, count)?;
        for (address, service) in heads() {
            let trace = Trace { address, service, ranges: full(count) };
            desk.file(&file::bytes(&trace), BY_CLIPPING)?;
            desk.tally.add("traces of about 4,096 ranges", 1);
        }
    }
    for head in heads() {
        around_the_largest_file(desk, head)?;
    }
    heads().into_iter().try_for_each(|head| long_inputs(desk, head))
}

fn as_lists(desk: &mut Desk, count: usize) -> Outcome {
    let lists = Lists::of(&full(count));
    for (address, service) in heads() {
        let expected = answers::write(address, service, &lists);
        for room in [WRITE_ROOM, WRITE_ROOM - 1] {
            desk.write((address, service, &lists), borrowed(&expected), &Room::with_length(0, room))?;
        }
        let expected = answers::segment(service, &lists, BY_CLIPPING);
        desk.segment(service, &lists, borrowed(&expected), &Room::enough())?;
        let expected = answers::latest(service, &lists, trends::BY_CLIPPING);
        desk.latest((service, &lists), borrowed(&expected), &Room::enough())?;
    }
    for k in [0, 1, 2, count, count + 1] {
        let expected = answers::corners(k, &lists, BY_CLIPPING);
        desk.corners(k, &lists, borrowed(&expected), &Room::enough())?;
    }
    previews(desk, &lists)
}

/// A good range behind all others, and a level, a direction, a step and a range that are wrong.
fn previews(desk: &mut Desk, lists: &Lists) -> Outcome {
    let time = lists.times.len() as u32;
    let good = Range { time, low: LEAST_VALUE, high: LARGEST_VALUE };
    let wrong = Range { low: 1, high: 0, ..good };
    let [rising, falling] = [Service::rising(0), Service::falling(0)];
    let outside = [Service::rising(i32::MAX), rising.toward(2), rising.every(0)].map(|service| (service, good));
    let inside = [rising, falling, falling.every(LARGEST_STEP)].map(|service| (service, good));
    for (service, range) in inside.into_iter().chain(outside).chain([(falling, wrong)]) {
        let expected = answers::preview(service, lists, &range, BY_CLIPPING);
        desk.preview((service, lists, &range), borrowed(&expected))?;
    }
    Ok(())
}

/// The file of a trace with more than 4,096 ranges, and how many bytes the first 4,096 and what is before them have.
fn too_long((address, service): Head, ranges: usize) -> (Vec<u8>, usize) {
    let file = file::bytes(&Trace { address, service, ranges: full(ranges) });
    let largest = file::field_start(&file, file::fields_of_header(&file) + MOST_RANGES);
    let is_largest = Some(&(address, service)) == heads().last();
    assert!(is_largest == (largest == LARGEST) && largest <= LARGEST, "the largest file has another length");
    (file, largest)
}

/// Every end near the end of the largest file, and some others; with wrong bytes behind it.
fn around_the_largest_file(desk: &mut Desk, head: Head) -> Outcome {
    let (file, largest) = too_long(head, MOST_RANGES + 3);
    let mut ends: Vec<usize> = (largest - 32..=file.len()).collect();
    ends.extend((0..CUTS).map(|_| desk.random.below(largest)));
    for end in ends {
        let expected = answers::read(&file[..end]);
        desk.read(&file[..end], borrowed(&expected), &Room::enough())?;
        desk.tally.add("ends of the largest file", 1);
    }
    for place in 0..3 {
        let mut file = file[..largest + place + 1].to_vec();
        file[largest + place] = 77;
        desk.file(&file, BY_CLIPPING)?;
        file.resize(largest + 3, 0);
        desk.file(&file, BY_CLIPPING)?;
    }
    Ok(())
}

/// Inputs of 65,536 bytes and more: the report of the first 65,536 is the report of all.
fn long_inputs(desk: &mut Desk, head: Head) -> Outcome {
    let (good, largest) = too_long(head, 3 * MOST_RANGES);
    for length in [INPUT - 1, INPUT, INPUT + 1, 2 * INPUT] {
        let random = (0..length).map(|_| desk.random.next() as u8).collect();
        let mut junk_behind = good.clone();
        junk_behind[largest..].iter_mut().for_each(|byte| *byte ^= 0x55);
        let mut late_fault = good.clone();
        late_fault[largest - 15 + 3 + 4] = 0x7f;
        for file in [good.clone(), random, junk_behind, late_fault] {
            let report = answers::report(&file[..INPUT.min(length)], BY_CLIPPING);
            let expected = answers::read(&file[..length]);
            desk.read(&file[..length], borrowed(&expected), &Room::enough())?;
            desk.report(&file[..length], &report, &Room::enough())?;
            desk.tally.add("inputs of about 65,536 bytes and more", 1);
        }
    }
    Ok(())
}
