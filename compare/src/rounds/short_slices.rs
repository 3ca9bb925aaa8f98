//! Each slice that a call fills, and each list of a panel, in its place: just long enough, short by one, and empty.

use crate::answers::{self, borrowed};
use crate::calls::{columns, head_ranges, lines, read, write};
use crate::damage::damaged;
use crate::desk::Desk;
use crate::difference::Outcome;
use crate::file;
use crate::panels::sound::{Fill, sound_panel};
use crate::room::Room;
use crate::rounds::panel_faults::shorten;
use crate::segments::{BY_TRYING, segments};
use crate::trace::{Lists, Range, Trace};
use crate::traces::small::small_trace;
use crate::trends;
use humoraki::{CORNER_ROOM, PANEL_ROOM, READ_ROOM, REPORT_ROOM, SEGMENT_ROOM, WRITE_ROOM};

/// How many traces are tried.
const TRACES: usize = 20;

pub fn compare(desk: &mut Desk) -> Outcome {
    for _ in 0..TRACES {
        let trace = small_trace(&mut desk.random);
        on_files(desk, &file::bytes(&trace))?;
        let file = damaged(&trace, &mut desk.random);
        on_files(desk, &file)?;
        on_lists(desk, &trace)?;
    }
    on_panels(desk)
}

fn lengths(least: usize) -> [usize; 4] {
    [least, least - 1, 1, 0]
}

/// A room for each place and length.
fn rooms(places: usize, least: usize) -> impl Iterator<Item = Room> {
    (0..places).flat_map(move |place| lengths(least).map(|length| Room::with_length(place, length)))
}

fn on_files(desk: &mut Desk, file: &[u8]) -> Outcome {
    let text = answers::report(file, BY_TRYING);
    let expected = answers::read(file);
    for room in rooms(read::PLACES, READ_ROOM) {
        desk.read(file, borrowed(&expected), &room)?;
    }
    for room in rooms(1, REPORT_ROOM) {
        desk.report(file, &text, &room)?;
    }
    Ok(())
}

fn on_lists(desk: &mut Desk, trace: &Trace) -> Outcome {
    let lists = Lists::of(&trace.ranges);
    let handed = (trace.address, trace.service, &lists);
    for room in rooms(write::PLACES, WRITE_ROOM) {
        desk.write(handed, Ok(&file::bytes(trace)), &room)?;
    }
    let segments = segments(&trace.ranges, trace.service, BY_TRYING);
    for room in rooms(columns::PLACES, SEGMENT_ROOM) {
        desk.segment(trace.service, &lists, Ok(&segments), &room)?;
    }
    let k = trace.ranges.len();
    let expected = answers::corners(k, &lists, BY_TRYING);
    for room in rooms(lines::PLACES, CORNER_ROOM) {
        desk.corners(k, &lists, borrowed(&expected), &room)?;
    }
    let expected = answers::latest(trace.service, &lists, trends::BY_TRYING);
    for room in rooms(lines::PLACES, CORNER_ROOM) {
        desk.latest((trace.service, &lists), borrowed(&expected), &room)?;
    }
    Ok(())
}

fn on_panels(desk: &mut Desk) -> Outcome {
    for list in 0..4 {
        for length in lengths(PANEL_ROOM) {
            let mut panel = sound_panel(Fill::Few, &mut desk.random);
            let (address, range) = (panel.entries[0].address, Range { time: u32::MAX, low: 0, high: 4 });
            shorten(&mut panel, list, length);
            let expected = answers::add(&panel, address, &range);
            desk.add((&panel, address, &range), borrowed(&expected))?;
            let expected = answers::head_ranges(&panel, address);
            desk.head_ranges((&panel, address), borrowed(&expected), &Room::enough())?;
        }
    }
    let panel = sound_panel(Fill::Some, &mut desk.random);
    let address = panel.entries[0].address;
    let expected = answers::head_ranges(&panel, address);
    for room in rooms(head_ranges::PLACES, PANEL_ROOM) {
        desk.head_ranges((&panel, address), borrowed(&expected), &room)?;
    }
    Ok(())
}
