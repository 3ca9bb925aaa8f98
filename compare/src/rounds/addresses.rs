//! Every address, in one byte and in two, and every fault of the field that it stands in.

use crate::answers::{self, borrowed};
use crate::desk::Desk;
use crate::difference::Outcome;
use crate::room::Room;
use crate::segments::BY_TRYING;
use crate::trace::{Lists, Service};
use crate::traces::addresses::{ENDS, outside};

/// The field of level 20.
const LEVEL: [u8; 7] = [2, 0, 4, 0, 0, 0, 20];

/// Tags, lengths and bodies of which every combination is tried, cut off at every byte.
const TAGS: [u8; 4] = [0, 1, 2, 255];
const LENGTHS: [u16; 12] = [0, 1, 2, 3, 4, 5, 256, 257, 258, 512, 513, 65_535];
const BODIES: [&[u8]; 13] = [
    &[],
    &[0],
    &[1],
    &[255],
    &[0, 0],
    &[0, 1],
    &[0, 255],
    &[1, 0],
    &[255, 255],
    &[2, 0],
    &[0, 0, 0],
    &[0, 1, 0],
    &[1, 0, 0],
];

/// How many numbers that are no address are handed to Write.
const OUTSIDE: usize = 200;

/// What is counted of the bodies: by their length, taken and refused.
const TAKEN: [&str; 2] = ["addresses in one byte", "addresses in two bytes"];
const REFUSED: [&str; 2] = ["addresses in one byte: 0", "addresses in two bytes: below 256"];

/// What is counted of the numbers handed to Write.
const WRITTEN: [&str; 2] = ["addresses written", "addresses written: outside their span"];

pub fn compare(desk: &mut Desk) -> Outcome {
    for name in [TAKEN, REFUSED, WRITTEN].concat() {
        desk.tally.add(name, 0);
    }
    every_body(desk)?;
    every_header(desk)?;
    written(desk)
}

/// Read on each body of one byte and of two.
fn every_body(desk: &mut Desk) -> Outcome {
    for byte in 0..=u8::MAX {
        body(desk, &[byte])?;
    }
    for address in 0..=u16::MAX {
        body(desk, &address.to_be_bytes())?;
    }
    Ok(())
}

/// Read takes a body exactly if Write gives it back.
fn body(desk: &mut Desk, body: &[u8]) -> Outcome {
    let file = [&[1, 0, body.len() as u8], body, &LEVEL].concat();
    let expected = answers::read(&file);
    desk.read(&file, borrowed(&expected), &Room::enough())?;
    let names = if expected.is_ok() { TAKEN } else { REFUSED };
    desk.tally.add(names[body.len() - 1], 1);
    match expected {
        Ok(trace) => desk.write((trace.address, trace.service, &Lists::default()), Ok(&file), &Room::enough()),
        Err(_) => Ok(()),
    }
}

/// Read and report on each header with each body, whole and cut off at every byte; Write where the file is good.
fn every_header(desk: &mut Desk) -> Outcome {
    for tag in TAGS {
        for length in LENGTHS {
            for body in BODIES {
                let [high, low] = length.to_be_bytes();
                let file = [&[tag, high, low], body, &LEVEL].concat();
                for end in 0..=file.len() {
                    desk.file(&file[..end], BY_TRYING)?;
                    desk.tally.add("address fields, whole and cut off", 1);
                }
            }
        }
    }
    Ok(())
}

/// Write with the ends of the span, with what is just outside it, and with other numbers that are no address.
fn written(desk: &mut Desk) -> Outcome {
    let near = ENDS.into_iter().flat_map(|end| [end - 1, end, end + 1]);
    let far: Vec<u32> = (0..OUTSIDE).map(|_| outside(&mut desk.random)).collect();
    for address in near.chain([65_543, u32::MAX]).chain(far) {
        let lists = Lists::default();
        let expected = answers::write(address, Service::rising(20), &lists);
        desk.write((address, Service::rising(20), &lists), borrowed(&expected), &Room::enough())?;
        desk.tally.add(WRITTEN[expected.is_err() as usize], 1);
    }
    Ok(())
}
