//! What the rounds on a field of the header that may be left out have in common: the field before ranges, with every
//! fault, in every place among the others and cut off at every byte; and its numbers handed in to the calls.

use crate::answers::{self, borrowed};
use crate::desk::Desk;
use crate::difference::Outcome;
use crate::room::Room;
use crate::segments::BY_TRYING;
use crate::trace::{Lists, Range, Service};
use crate::trends;
use crate::trial;

/// Addresses of one byte and of two, and level 20.
pub const ADDRESSES: [&[u8]; 2] = [&[1, 0, 1, 7], &[1, 0, 2, 1, 0]];
pub const LEVEL: &[u8] = &[2, 0, 4, 0, 0, 0, 20];

/// A direction and a step, of a minute.
pub const FALLING_FIELD: &[u8] = &[4, 0, 1, 1];
pub const STEP_FIELD: &[u8] = &[5, 0, 4, 0, 0, 0, 60];

/// Two ranges, (10, 36, 40) and (20, 32, 36).
pub const FIRST: &[u8] = &[3, 0, 12, 0, 0, 0, 10, 0, 0, 0, 36, 0, 0, 0, 40];
const SECOND: &[u8] = &[3, 0, 12, 0, 0, 0, 20, 0, 0, 0, 32, 0, 0, 0, 36];

/// Tags that are tried with each length and each body.
const TAGS: [u8; 10] = [0, 1, 2, 3, 4, 5, 6, 7, 8, 255];

/// Read, report and Write on a header without ranges, with one and with two, counted by whether it is turned down.
pub fn before_ranges(desk: &mut Desk, header: &[u8], names: [&str; 2]) -> Outcome {
    for ranges in [&[][..], FIRST, &[FIRST, SECOND].concat()] {
        let file = [header, ranges].concat();
        desk.file(&file, BY_TRYING)?;
        desk.tally.add(names[answers::read(&file).is_err() as usize], 1);
    }
    Ok(())
}

/// The same on each header of a field with each body behind these fields, whole and cut off at every byte.
pub fn every_header(desk: &mut Desk, before: &[u8], lengths: &[u16], bodies: &[&[u8]], name: &str) -> Outcome {
    for tag in TAGS {
        for length in lengths {
            for body in bodies {
                let [high, low] = length.to_be_bytes();
                let file = [before, &[tag, high, low], body, FIRST].concat();
                every_end(desk, &file, before.len(), name)?;
            }
        }
    }
    Ok(())
}

/// The same with these fields anywhere among the others: few places will do.
pub fn every_place(desk: &mut Desk, put: &[&[u8]], name: &str) -> Outcome {
    for address in ADDRESSES {
        for fields in arrangements(&[address, LEVEL, FIRST, SECOND], put) {
            every_end(desk, &fields.concat(), 0, name)?;
        }
    }
    Ok(())
}

/// The fields with more of them, each in every place.
fn arrangements<'a>(fields: &[&'a [u8]], put: &[&'a [u8]]) -> Vec<Vec<&'a [u8]>> {
    let with =
        |found: Vec<Vec<&'a [u8]>>, field: &&'a [u8]| found.iter().flat_map(|of| with_one(of, field)).collect();
    put.iter().fold(vec![fields.to_vec()], with)
}

fn with_one<'a>(fields: &[&'a [u8]], field: &'a [u8]) -> Vec<Vec<&'a [u8]>> {
    let with_it = |place| [&fields[..place], &[field], &fields[place..]].concat();
    (0..=fields.len()).map(with_it).collect()
}

/// A file that ends at each byte from here on.
pub fn every_end(desk: &mut Desk, file: &[u8], from: usize, name: &str) -> Outcome {
    for end in from..=file.len() {
        desk.file(&file[..end], BY_TRYING)?;
        desk.tally.add(name, 1);
    }
    Ok(())
}

/// Each call that takes a service, on lists without ranges and with two, counted by whether the service is turned down.
pub fn handed_in(desk: &mut Desk, service: Service, names: [&str; 2]) -> Outcome {
    let lists = Lists { times: vec![10, 20], lows: vec![36, 32], highs: vec![40, 36] };
    for lists in [&Lists::default(), &lists] {
        four_calls(desk, service, lists)?;
    }
    desk.tally.add(names[trial::service(&service).is_err() as usize], 1);
    Ok(())
}

fn four_calls(desk: &mut Desk, service: Service, lists: &Lists) -> Outcome {
    let expected = answers::write(7, service, lists);
    desk.write((7, service, lists), borrowed(&expected), &Room::enough())?;
    let expected = answers::segment(service, lists, BY_TRYING);
    desk.segment(service, lists, borrowed(&expected), &Room::enough())?;
    let range = Range { time: 30, low: 26, high: 30 };
    let expected = answers::preview(service, lists, &range, BY_TRYING);
    desk.preview((service, lists, &range), borrowed(&expected))?;
    let expected = answers::latest(service, lists, trends::BY_TRYING);
    desk.latest((service, lists), borrowed(&expected), &Room::enough())
}
