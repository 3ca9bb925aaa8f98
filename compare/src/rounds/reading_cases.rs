//! The worked cases of the scope on readings: as in `samples`, what is expected here is held to the scope first.

use super::header_fields::{FALLING_FIELD, FIRST, LEVEL, STEP_FIELD};
use super::samples::{ADDRESS, agree, ranges, report};
use crate::answers;
use crate::desk::Desk;
use crate::difference::Outcome;
use crate::file::reading_field;
use crate::readings::Reading;
use crate::segments::BY_TRYING;
use crate::trace::Lists;
use crate::traces::readings::{ABOVE, HALF, LARGEST, MINUS, MOST, NOT_A_NUMBER, SIGNALLING};

/// 1, 1.5 and 2 in binary32.
const ONE: u32 = 0x3f80_0000;
const ONE_AND_A_HALF: u32 = 0x3fc0_0000;
const TWO: u32 = 0x4000_0000;

const LOGGER_REPORT: &str = "\
detector 7 level 640 ranges 3 segments 1
segment 1 from 10 to 30 ranges 3 slow 64 0 5 fast 64 0 5 some 50 all 50
";

pub fn compare(desk: &mut Desk) -> Outcome {
    logger(desk)?;
    taken(desk)?;
    refused(desk)
}

/// A logger with level 640, which is 2.5: it read 0.5 at 10, 0.75 to 1.25 at 20, and 1.5 at 30.
fn logger(desk: &mut Desk) -> Outcome {
    let fields = [spot(10, 0x3f00_0000), span(20, 0x3f40_0000, 0x3fa0_0000), spot(30, ONE_AND_A_HALF)].concat();
    let file = [ADDRESS, &[2, 0, 4, 0, 0, 2, 128], &fields].concat();
    report(desk, &file, LOGGER_REPORT)?;
    read_as(desk, &file, &[(10, 128, 128), (20, 192, 320), (30, 384, 384)])
}

/// Files of address 7 and level 20 with a reading behind them.
fn taken(desk: &mut Desk) -> Outcome {
    let (least, end) = (0x3b80_0000, 268_435_456);
    let fields = [
        (spot(10, MINUS), (10, 0, 0)),
        (span(10, 0, MINUS), (10, 0, 0)),
        (span(10, MINUS | least, least), (10, -1, 1)),
        (span(10, MINUS | MOST, MOST), (10, -end, end)),
        ([FALLING_FIELD, STEP_FIELD, &span(10, ONE, TWO)].concat(), (10, 256, 512)),
    ];
    for (field, range) in fields {
        read_as(desk, &[ADDRESS, LEVEL, &field].concat(), &[range])?;
    }
    Ok(())
}

/// The same where the reading is turned down, or a field beside it.
fn refused(desk: &mut Desk) -> Outcome {
    let (infinite, nan) = (0x7f80_0000, NOT_A_NUMBER);
    let (first, wide) = (&spot(10, ONE)[..], &span(10, ONE, TWO)[..]);
    let fields = [
        (spot(10, HALF), 11),
        (spot(10, 1), 11),
        (spot(10, infinite), 11),
        (spot(10, MINUS | infinite), 11),
        (spot(10, nan), 11),
        (spot(10, SIGNALLING), 11),
        (spot(10, ABOVE), 4),
        (spot(10, MINUS | ABOVE), 4),
        (spot(10, LARGEST), 4),
        (spot(10, MINUS | LARGEST), 4),
        (span(10, ABOVE, nan), 4),
        (span(10, nan, ABOVE), 11),
        (span(10, ONE, nan), 11),
        (span(10, ONE, ABOVE), 4),
        (span(10, TWO, ONE), 5),
        ([first, &spot(10, nan)].concat(), 11),
        ([first, &span(10, TWO, nan)].concat(), 11),
        ([first, &span(10, TWO, ONE)].concat(), 5),
        ([wide, first].concat(), 6),
        ([first, FIRST].concat(), 2),
        ([wide, FIRST].concat(), 2),
        ([FIRST, &spot(20, ONE)].concat(), 2),
        ([FIRST, &span(20, ONE, TWO)].concat(), 2),
        ([first, FALLING_FIELD].concat(), 2),
        ([wide, STEP_FIELD].concat(), 2),
        (vec![6, 0, 12], 3),
        (vec![7, 0, 8], 3),
        (spot(10, nan)[..10].to_vec(), 1),
    ];
    for (field, number) in fields {
        report(desk, &[ADDRESS, LEVEL, &field].concat(), &format!("refused {number}\n"))?;
    }
    Ok(())
}

fn spot(time: u32, value: u32) -> Vec<u8> {
    reading_field(&Reading::Spot { time, value })
}

fn span(time: u32, low: u32, high: u32) -> Vec<u8> {
    reading_field(&Reading::Span { time, low, high })
}

/// The ranges that a file has.
fn read_as(desk: &mut Desk, file: &[u8], scope: &[(u32, i32, i32)]) -> Outcome {
    let ranges = ranges(scope);
    let found = answers::read(file).map(|trace| trace.ranges);
    agree(format!("{:?}", Ok::<_, u8>(&ranges)), format!("{found:?}"), &Lists::of(&ranges))?;
    desk.tally.add("worked cases of the scope", 1);
    desk.file(file, BY_TRYING)
}
