//! The two calls on a panel, on panels whose answers are known.

use super::super::declarations::{humoraki_add, humoraki_head_ranges};
use super::super::{MOST_HEADS, Outlook, segment};
use super::Direction::{Falling, Rising};
use super::*;
use std::ptr::null_mut;

/// A range of head 7 at 10, then one of head 9 at 30, then one of head 7 at 20.
fn example() -> Panel {
    let mut panel = Panel::new(&[7, 9]);
    for (address, time) in [(7, 10), (9, 30), (7, 20)] {
        assert_eq!(panel.add(address, time, 0, 4), Ok(()));
    }
    panel
}

/// Head 1 holds 32 ranges, head 2 so many.
fn beside(count: u32) -> Panel {
    let mut panel = Panel::new(&[1, 2]);
    for (address, count) in [(1, 32), (2, count)] {
        for time in 0..count {
            assert_eq!(panel.add(address, time, 0, 4), Ok(()));
        }
    }
    panel
}

/// That Add turns a range down with this number, and leaves the panel as it was.
fn refused(panel: &Panel, (address, time, low, high): (u32, u32, i32, i32), number: u8) {
    let mut tried = panel.clone();
    assert_eq!(tried.add(address, time, low, high), Err(number));
    assert_eq!(tried, *panel);
}

/// That both calls turn the panel down with this number, whatever else is wrong.
fn refused_whole(panel: &Panel, number: u8) {
    refused(panel, (8, 20, 5, i32::MAX), number);
    assert_eq!(panel.trace(8, 20, Rising, 1), Err(number));
}

#[test]
fn ranges_come_back_head_by_head() {
    let panel = example();
    assert_eq!(panel.entries(), [Entry { address: 7, held: 2 }, Entry { address: 9, held: 1 }]);
    let (times, lows, highs) = (vec![10, 20], vec![0, 0], vec![4, 4]);
    assert_eq!(
        panel.trace(7, 20, Falling, 60),
        Ok(Trace { address: 7, level: 20, direction: Falling, step: 60, times, lows, highs })
    );
    assert_eq!(panel.trace(9, 20, Rising, 1).map(|trace| trace.times), Ok(vec![30]));
    assert_eq!(panel.trace(8, 20, Rising, 1), Err(12));
}

#[test]
fn a_head_has_segments() {
    let segments = segment(&example().trace(7, 20, Rising, 1).unwrap()).unwrap();
    assert_eq!((segments.len(), segments[0].ranges), (1, 2));
    assert!(matches!(segments[0].outlook, Outlook::Lines { some: Some(60), all: None, .. }));
}

#[test]
fn both_directions_are_on_one_panel() {
    let segments = segment(&example().trace(7, -16, Falling, 1).unwrap()).unwrap();
    assert_eq!((segments.len(), segments[0].ranges), (1, 2));
    assert!(matches!(segments[0].outlook, Outlook::Lines { some: Some(60), all: None, .. }));
}

#[test]
fn the_first_reason_is_given() {
    let panel = example();
    for address in [0, 8, 65_536, 65_543, u32::MAX] {
        refused(&panel, (address, 20, 5, i32::MAX), 12);
    }
    refused(&panel, (7, 20, -268_435_457, -268_435_458), 4);
    refused(&panel, (7, 20, 0, 268_435_457), 4);
    refused(&panel, (7, 20, 5, 4), 5);
    refused(&panel, (7, 20, 0, 4), 6);
}

#[test]
fn a_time_is_held_against_its_own_head() {
    assert_eq!(example().add(7, 21, 0, 4), Ok(()));
    refused(&example(), (9, 30, 0, 4), 6);
}

#[test]
fn a_33rd_range_takes_a_common_place() {
    let mut panel = beside(2079);
    assert_eq!(panel.add(1, 32, 0, 4), Ok(()));
    refused(&panel, (1, 33, 0, 4), 13);
    refused(&panel, (1, 32, 0, 4), 6);
    refused(&beside(2080), (1, 32, 0, 4), 13);
}

#[test]
fn heads_may_make_no_panel() {
    let many: Vec<u32> = (1..=MOST_HEADS as u32 + 1).collect();
    for heads in [&[][..], &many, &[7, 9, 7], &[7, 0], &[7, 65_536], &[7, 65_543]] {
        refused_whole(&Panel::new(heads), 14);
    }
    assert_eq!(Panel::new(&many[..MOST_HEADS]).add(64, 10, 0, 4), Ok(()));
}

#[test]
fn counts_are_held_against_the_places() {
    for held in [[1, 2], [3, 1], [2, 0], [2081, 1], [u32::MAX, 1], [u32::MAX; 2], [0, u32::MAX]] {
        let mut panel = example();
        panel.entries[0].held = held[0];
        panel.entries[1].held = held[1];
        refused_whole(&panel, 14);
    }
    let mut panel = example();
    panel.addresses[1] = 8;
    refused_whole(&panel, 14);
}

#[test]
fn a_list_that_is_too_short_comes_first() {
    let shorten: [fn(&mut Panel); 4] = [
        |panel| panel.addresses.truncate(PANEL_ROOM - 1),
        |panel| panel.times.truncate(PANEL_ROOM - 1),
        |panel| panel.lows.truncate(PANEL_ROOM - 1),
        |panel| panel.highs.truncate(PANEL_ROOM - 1),
    ];
    for shorten in shorten {
        for mut panel in [example(), Panel::new(&[])] {
            shorten(&mut panel);
            refused_whole(&panel, 8);
        }
    }
}

/// A slice as C may lend it: null and 0 if it is missing.
fn lend<T>(slice: &mut [T], missing: bool) -> (*mut T, usize) {
    if missing { (null_mut(), 0) } else { (slice.as_mut_ptr(), slice.len()) }
}

/// The numbers of Add and Head ranges without the slice at one place: the entries, the four lists, the three lists that
/// Head ranges fills.
// A slice's pointer and length share a line, as in the header.
#[rustfmt::skip]
fn numbers_without(place: usize, panel: &mut Panel, into: &mut Panel, count: &mut usize) -> [u8; 2] {
    let entries = lend(&mut panel.entries, place == 0);
    let addresses = lend(&mut panel.addresses, place == 1);
    let times = lend(&mut panel.times, place == 2);
    let lows = lend(&mut panel.lows, place == 3);
    let highs = lend(&mut panel.highs, place == 4);
    let into_times = lend(&mut into.times, place == 5);
    let into_lows = lend(&mut into.lows, place == 6);
    let into_highs = lend(&mut into.highs, place == 7);
    // SAFETY: a null pointer has the length 0 beside it. The others are slices' own, with their lengths, and all are
    // borrowed as mutable, so that none overlaps another.
    unsafe {
        let listed = humoraki_head_ranges(
            entries.0, entries.1,
            addresses.0, addresses.1,
            times.0, times.1,
            lows.0, lows.1,
            highs.0, highs.1,
            7,
            into_times.0, into_times.1,
            into_lows.0, into_lows.1,
            into_highs.0, into_highs.1,
            count,
        );
        let added = humoraki_add(
            entries.0, entries.1,
            addresses.0, addresses.1,
            times.0, times.1,
            lows.0, lows.1,
            highs.0, highs.1,
            7, 25, 1, 3,
        );
        [added, listed]
    }
}

#[test]
fn both_take_null_slices() {
    let (mut panel, mut into, mut count) = (example(), Panel::new(&[]), 77);
    for (place, number) in [(0, 14), (1, 8), (2, 8), (3, 8), (4, 8)] {
        assert_eq!(numbers_without(place, &mut panel, &mut into, &mut count), [number; 2]);
        assert_eq!((&panel, &into, count), (&example(), &Panel::new(&[]), 77));
    }
    for place in [5, 6, 7] {
        assert_eq!(numbers_without(place, &mut panel, &mut into, &mut count), [0, 8]);
        assert_eq!((panel, &into, count), (after_25(), &Panel::new(&[]), 77));
        panel = example();
    }
    assert_eq!(numbers_without(8, &mut panel, &mut into, &mut count), [0, 0]);
    assert_eq!((panel, count, &into.times[..3]), (after_25(), 2, &[10, 20, 0][..]));
}

/// The example with one range more.
fn after_25() -> Panel {
    let mut panel = example();
    assert_eq!(panel.add(7, 25, 1, 3), Ok(()));
    panel
}
