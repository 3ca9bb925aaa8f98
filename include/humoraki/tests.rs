//! The calls, on a trace whose answers are known.

use super::declarations::{
    humoraki_corners, humoraki_latest, humoraki_preview, humoraki_read, humoraki_report, humoraki_segment,
    humoraki_write,
};
use super::lent::Columns;
use super::*;
use std::ptr::{null, null_mut};

/// The trace of the repository's first sample.
fn example() -> Trace {
    Trace {
        address: 7,
        level: 20,
        direction: Direction::Rising,
        step: 1,
        times: vec![10, 20, 30, 40, 50],
        lows: vec![0, 4, 10, 9, 9],
        highs: vec![4, 8, 14, 11, 12],
    }
}

/// That of the beam head: the first with each value taken from 40.
fn beam() -> Trace {
    Trace {
        direction: Direction::Falling,
        lows: vec![36, 32, 26, 29, 28],
        highs: vec![40, 36, 30, 31, 31],
        ..example()
    }
}

/// The level of both, with this number for the direction.
fn service(direction: u32) -> Service {
    Service { level: 20, direction, step: 1 }
}

/// The same on a rising trace, with this number for the step.
fn stepped(step: u32) -> Service {
    Service { step, ..service(RISING) }
}

fn line(p: i64, q: i64, d: i64) -> Line {
    Line { p, q, d }
}

#[test]
fn a_written_trace_reads_back() {
    let file = write(&example()).unwrap();
    assert_eq!(file.len(), 86);
    assert_eq!(read(&file), Ok(example()));
    assert_eq!(read(&file[..85]), Err(1));
}

#[test]
fn a_falling_trace_has_a_field_more() {
    let file = write(&beam()).unwrap();
    assert_eq!((file.len(), &file[11..15]), (90, &[4, 0, 1, 1][..]));
    assert_eq!(read(&file), Ok(beam()));
    let rising = write(&Trace { direction: Direction::Rising, ..beam() }).unwrap();
    assert_eq!(rising, [&file[..11], &file[15..]].concat());
}

#[test]
fn a_step_has_a_field_more() {
    for (trace, place) in [(example(), 11), (beam(), 15)] {
        let file = write(&trace).unwrap();
        let stepped = Trace { step: 28_800, ..trace };
        let field = [5, 0, 4, 0, 0, 0x70, 0x80];
        assert_eq!(write(&stepped), Ok([&file[..place], &field, &file[place..]].concat()));
        assert_eq!(read(&write(&stepped).unwrap()), Ok(stepped));
    }
}

/// The trace that the first fields of the example and these bytes behind them are.
fn read_behind(bytes: &[u8]) -> Result<Trace, u8> {
    read(&[&[1, 0, 1, 7, 2, 0, 4, 0, 0, 0, 20], bytes].concat())
}

/// Its direction.
fn told_behind(bytes: &[u8]) -> Result<Direction, u8> {
    read_behind(bytes).map(|trace| trace.direction)
}

/// Its step.
fn step_behind(bytes: &[u8]) -> Result<u32, u8> {
    read_behind(bytes).map(|trace| trace.step)
}

/// The field of a step.
fn step_field(step: u32) -> Vec<u8> {
    [&[5, 0, 4], &step.to_be_bytes()[..]].concat()
}

#[test]
fn a_direction_has_one_form() {
    assert_eq!(told_behind(&[]), Ok(Direction::Rising));
    assert_eq!(told_behind(&[4, 0, 1, 1]), Ok(Direction::Falling));
    for value in [0, 2, 255] {
        assert_eq!(told_behind(&[4, 0, 1, value]), Err(4));
    }
    assert_eq!(told_behind(&[4, 0, 1, 1, 4, 0, 1, 1]), Err(2));
    for length in [0, 2, 255] {
        assert_eq!(told_behind(&[4, 0, length, 1]), Err(3));
    }
    assert_eq!(told_behind(&[4, 1, 1, 1]), Err(3));
    for end in 1..4 {
        assert_eq!(told_behind(&[4, 0, 1, 1][..end]), Err(1));
    }
}

#[test]
fn a_direction_stands_directly_after_the_level() {
    let range = [3, 0, 12, 0, 0, 0, 10, 0, 0, 0, 0, 0, 0, 0, 4];
    assert_eq!(told_behind(&[&[4, 0, 1, 1][..], &range].concat()), Ok(Direction::Falling));
    assert_eq!(told_behind(&[&range[..], &[4, 0, 1, 1]].concat()), Err(2));
    assert_eq!(read(&[1, 0, 1, 7, 4, 0, 1, 1, 2, 0, 4, 0, 0, 0, 20]), Err(2));
}

/// That each call with a level refuses this with 4, and leaves what it is lent.
fn every_call_refuses(service: Service) {
    let (trace, mut file, mut count) = (example(), vec![77; WRITE_ROOM], 77);
    let (mut table, mut numbers) = (Table::holding(77), (77, [77; 6], [77; 2]));
    let (mut corners, mut trend) = (some_corners(), TOLD);
    assert_eq!(lent::write(7, service, trace.ranges(), &mut file, &mut count), Err(4));
    assert_eq!(lent::segment(service, trace.ranges(), table.columns(), &mut count), Err(4));
    assert_eq!(lent::preview(service, trace.ranges(), 60, 13, 16, effect_of(&mut numbers)), Err(4));
    assert_eq!(lent::latest(service, trace.ranges(), lines_in(&mut corners), trend_of(&mut trend)), Err(4));
    assert_eq!((file, count, table, numbers), (vec![77; WRITE_ROOM], 77, Table::holding(77), (77, [77; 6], [77; 2])));
    assert_eq!((corners, trend), (some_corners(), TOLD));
}

#[test]
fn a_direction_is_refused_and_not_cut() {
    for direction in [2, 256, 65_537, u32::MAX] {
        every_call_refuses(service(direction));
    }
}

#[test]
fn a_step_has_one_form() {
    assert_eq!(step_behind(&[]), Ok(1));
    for step in [2, 60, 28_800, 65_536, 86_400] {
        assert_eq!(step_behind(&step_field(step)), Ok(step));
    }
    for step in [0, 1, 86_401, 1 << 24, 1 << 31, u32::MAX] {
        assert_eq!(step_behind(&step_field(step)), Err(4));
    }
    for length in [0, 1, 2, 3, 5, 255] {
        assert_eq!(step_behind(&[5, 0, length, 0, 0, 0, 60, 0]), Err(3));
    }
    assert_eq!(step_behind(&[5, 1, 4, 0, 0, 0, 60]), Err(3));
    for end in 1..7 {
        assert_eq!(step_behind(&step_field(60)[..end]), Err(1));
    }
}

#[test]
fn a_step_stands_before_the_ranges() {
    let (step, falling) = (&step_field(60)[..], &[4, 0, 1, 1][..]);
    let range = &[3, 0, 12, 0, 0, 0, 10, 0, 0, 0, 0, 0, 0, 0, 4][..];
    assert_eq!(step_behind(&[step, range].concat()), Ok(60));
    assert_eq!(step_behind(&[falling, step, range].concat()), Ok(60));
    for wrong in [[step, falling], [step, step], [range, step]] {
        assert_eq!(step_behind(&wrong.concat()), Err(2));
    }
    assert_eq!(read(&[&[1, 0, 1, 7], step, &[2, 0, 4, 0, 0, 0, 20]].concat()), Err(2));
}

#[test]
fn a_step_is_refused_and_not_cut() {
    for step in [0, 86_401, (1 << 17) + 60, u32::MAX] {
        every_call_refuses(stepped(step));
    }
}

/// The bits of a value in binary32 that is not a number.
const NOT_A_NUMBER: u32 = 0x7fc0_0000;

/// A reading at a time: a spot value, or a low and a high, by their bits.
fn spot_field(time: u32, value: u32) -> Vec<u8> {
    [&[6, 0, 8], &time.to_be_bytes()[..], &value.to_be_bytes()].concat()
}

fn span_field(time: u32, low: u32, high: u32) -> Vec<u8> {
    [&[7, 0, 12], &time.to_be_bytes()[..], &low.to_be_bytes(), &high.to_be_bytes()].concat()
}

/// The range that a trace of one reading has.
fn range_behind(field: &[u8]) -> Result<(u32, i32, i32), u8> {
    read_behind(field).map(|trace| (trace.times[0], trace.lows[0], trace.highs[0]))
}

#[test]
fn readings_are_taken_in_256ths() {
    assert_eq!(range_behind(&spot_field(10, 1.5_f32.to_bits())), Ok((10, 384, 384)));
    assert_eq!(range_behind(&span_field(10, (-0.25_f32).to_bits(), 3_f32.to_bits())), Ok((10, -64, 768)));
    assert_eq!(range_behind(&span_field(10, 0, (-0.0_f32).to_bits())), Ok((10, 0, 0)));
    let end = 1_048_576_f32;
    assert_eq!(range_behind(&span_field(10, (-end).to_bits(), end.to_bits())), Ok((10, -268_435_456, 268_435_456)));
}

#[test]
fn a_value_that_is_not_whole_is_refused_with_11() {
    for value in [1.0 / 512.0, 0.1, f32::MIN_POSITIVE, f32::INFINITY, -f32::INFINITY] {
        assert_eq!(range_behind(&spot_field(10, value.to_bits())), Err(11));
    }
    for bits in [1, NOT_A_NUMBER, 0x7f80_0001, u32::MAX] {
        assert_eq!(range_behind(&spot_field(10, bits)), Err(11));
    }
    for value in [1_048_576.125, -1_048_577.0, f32::MAX, f32::MIN] {
        assert_eq!(range_behind(&spot_field(10, value.to_bits())), Err(4));
    }
}

#[test]
fn the_low_of_a_reading_is_tried_before_the_high() {
    let (one, two, outside) = (1_f32.to_bits(), 2_f32.to_bits(), f32::MAX.to_bits());
    let tried = [
        (NOT_A_NUMBER, outside, 11),
        (outside, NOT_A_NUMBER, 4),
        (two, NOT_A_NUMBER, 11),
        (two, outside, 4),
        (two, one, 5),
        (one, two, 6),
    ];
    for (low, high, number) in tried {
        let file = [spot_field(10, one), span_field(10, low, high)].concat();
        assert_eq!(range_behind(&file), Err(number));
    }
}

#[test]
fn readings_and_ranges_do_not_mix() {
    let range = &[3, 0, 12, 0, 0, 0, 15, 0, 0, 0, 0, 0, 0, 0, 4][..];
    let (spot, span) = (&spot_field(10, 0)[..], &span_field(20, 0, 0)[..]);
    assert_eq!(read_behind(&[spot, span].concat()).map(|trace| trace.times), Ok(vec![10, 20]));
    for wrong in [[spot, range], [span, range], [range, spot], [range, span], [spot, &[4, 0, 1, 1]]] {
        assert_eq!(read_behind(&wrong.concat()), Err(2));
    }
    for length in [0, 7, 9, 12] {
        assert_eq!(read_behind(&[&[6, 0, length], &spot[3..], &[0; 4]].concat()), Err(3));
    }
    for length in [0, 8, 11, 13] {
        assert_eq!(read_behind(&[&[7, 0, length], &span[3..], &[0; 4]].concat()), Err(3));
    }
    for end in 1..spot.len() {
        assert_eq!(read_behind(&spot[..end]), Err(1));
    }
}

#[test]
fn readings_are_written_as_ranges() {
    let fields = [spot_field(10, 0.5_f32.to_bits()), span_field(20, 0.75_f32.to_bits(), 1.25_f32.to_bits())].concat();
    let file = [&[1, 0, 1, 7, 2, 0, 4, 0, 0, 2, 128], &fields[..]].concat();
    let trace = read(&file).unwrap();
    assert_eq!((&trace.lows[..], &trace.highs[..]), (&[128, 192][..], &[128, 320][..]));
    let written = write(&trace).unwrap();
    assert_eq!((written[11], written.len()), (3, 41));
    assert_eq!(read(&written), Ok(trace));
    assert_eq!(report(&written), report(&file));
    assert!(report(&file).starts_with(b"detector 7 level 640 ranges 2 segments 1\n"));
}

/// The address field of the file that Write makes.
fn address_field(address: u32) -> Result<Vec<u8>, u8> {
    let file = write(&Trace { address, ..example() })?;
    Ok(file[..file.len() - 82].to_vec())
}

#[test]
fn a_wide_address_has_two_bytes() {
    assert_eq!(address_field(1), Ok(vec![1, 0, 1, 1]));
    assert_eq!(address_field(255), Ok(vec![1, 0, 1, 255]));
    assert_eq!(address_field(256), Ok(vec![1, 0, 2, 1, 0]));
    assert_eq!(address_field(65_535), Ok(vec![1, 0, 2, 255, 255]));
}

#[test]
fn an_address_is_refused_and_not_cut() {
    for address in [0, 65_536, 65_543, u32::MAX] {
        assert_eq!(address_field(address), Err(4));
    }
}

#[test]
fn a_wide_address_reads_back() {
    for address in [1, 255, 256, 65_535] {
        let trace = Trace { address, ..example() };
        let file = write(&trace).unwrap();
        assert_eq!(read(&file), Ok(trace));
        let first = format!("detector {address} level 20 ranges 5 segments 2\n");
        assert!(report(&file).starts_with(first.as_bytes()));
    }
}

/// What is told of a file without ranges whose address field has this length and this body.
fn told(length: u16, body: &[u8]) -> Result<u32, u8> {
    let file = [&[1], &length.to_be_bytes()[..], body, &[2, 0, 4, 0, 0, 0, 20]].concat();
    read(&file).map(|trace| trace.address)
}

#[test]
fn an_address_has_one_form() {
    assert_eq!(told(1, &[255]), Ok(255));
    assert_eq!(told(2, &[1, 0]), Ok(256));
    for body in [&[0][..], &[0, 0], &[0, 7], &[0, 255]] {
        assert_eq!(told(body.len() as u16, body), Err(4));
    }
}

#[test]
fn the_length_of_an_address_is_tried_before_its_body() {
    for length in [0, 3, 257, 65_535] {
        assert_eq!(told(length, &[1]), Err(3));
    }
    assert_eq!(read(&[1, 0, 3]), Err(3));
    assert_eq!(read(&[1, 0, 2, 1]), Err(1));
}

#[test]
fn the_largest_file_fills_its_room() {
    let times: Vec<u32> = (0..4096).collect();
    let trace = Trace { address: 65_535, step: 2, times, lows: vec![0; 4096], highs: vec![0; 4096], ..beam() };
    assert_eq!(write(&trace).map(|file| file.len()), Ok(WRITE_ROOM));
    for service in [service(RISING), service(FALLING), service(2), stepped(86_400), stepped(0)] {
        let mut file = vec![77; WRITE_ROOM - 1];
        let mut count = 77;
        assert_eq!(lent::write(7, service, example().ranges(), &mut file, &mut count), Err(8));
        assert_eq!((file, count), (vec![77; WRITE_ROOM - 1], 77));
    }
}

#[test]
fn segments_have_their_lines_and_times() {
    let segments = segment(&example()).unwrap();
    assert_eq!(segments.len(), 2);
    let last = Segment {
        first_time: 40,
        last_time: 50,
        ranges: 2,
        outlook: Outlook::Lines { slow: line(-1, 95, 5), fast: line(3, -30, 10), some: Some(77), all: None },
    };
    assert_eq!(segments[1], last);
}

#[test]
fn a_falling_trace_is_the_image_of_a_rising_one() {
    let [first, last] = segment(&beam()).unwrap()[..] else { panic!("not two segments") };
    let outlook = Outlook::Lines { slow: line(-7, 470, 10), fast: line(-3, 390, 10), some: Some(39), all: Some(64) };
    assert_eq!(first, Segment { first_time: 10, last_time: 30, ranges: 3, outlook });
    let outlook = Outlook::Lines { slow: line(-3, 430, 10), fast: line(1, 105, 5), some: Some(77), all: None };
    assert_eq!(last, Segment { first_time: 40, last_time: 50, ranges: 2, outlook });
    let rising = segment(&Trace { direction: Direction::Rising, ..beam() }).unwrap();
    assert!(matches!(rising[0].outlook, Outlook::Lines { some: Some(30), all: Some(30), .. }));
}

/// The two times of each segment of a trace.
fn times_of(trace: &Trace) -> Vec<(Option<u32>, Option<u32>)> {
    let told = |segment: &Segment| match segment.outlook {
        Outlook::Lines { some, all, .. } => (some, all),
        Outlook::Open => panic!("an open segment"),
    };
    segment(trace).unwrap().iter().map(told).collect()
}

#[test]
fn times_are_multiples_of_the_step() {
    for trace in [example(), beam()] {
        let steps = [(1, [39, 64, 77]), (2, [40, 64, 78]), (25, [50, 75, 100]), (86_400, [86_400, 86_400, 86_400])];
        for (step, [some, all, last]) in steps {
            let expected = [(Some(some), Some(all)), (Some(last), None)];
            assert_eq!(times_of(&Trace { step, ..trace.clone() }), expected);
        }
    }
}

#[test]
fn a_signal_may_fall_back_before_the_shift() {
    let (times, values) = (vec![0, 10], vec![10, 9]);
    let trace = Trace { level: 9, times, lows: values.clone(), highs: values, ..example() };
    for (step, time) in [(1, Some(10)), (10, Some(10)), (11, None), (86_400, None)] {
        assert_eq!(times_of(&Trace { step, ..trace.clone() }), [(time, time)]);
    }
}

#[test]
fn the_last_time_need_not_be_a_multiple() {
    let (times, values) = (vec![0, u32::MAX], vec![9, 9]);
    let trace = Trace { level: 9, times, lows: values.clone(), highs: values, ..example() };
    for (step, time) in [(1, Some(u32::MAX)), (2, None), (3, Some(u32::MAX)), (7, None)] {
        assert_eq!(times_of(&Trace { step, ..trace.clone() }), [(time, time)]);
    }
}

#[test]
fn a_preview_and_a_latest_trend_have_a_step() {
    let trace = Trace { step: 60, ..example() };
    let joined = Outlook::Lines { slow: line(1, 70, 10), fast: line(3, -30, 10), some: Some(120), all: Some(180) };
    assert_eq!(preview(&trace, 60, 13, 16), Ok(Effect::Joins(joined)));
    let outlook = Outlook::Lines { slow: line(-1, 95, 5), fast: line(1, 70, 10), some: Some(180), all: None };
    assert_eq!(latest(&trace).map(|trend| (trend.ranges, trend.outlook)), Ok((3, outlook)));
}

#[test]
fn a_preview_of_a_falling_trace() {
    let joined = Outlook::Lines { slow: line(-3, 430, 10), fast: line(-1, 330, 10), some: Some(77), all: Some(130) };
    assert_eq!(preview(&beam(), 60, 24, 27), Ok(Effect::Joins(joined)));
    assert_eq!(preview(&beam(), 60, 22, 24), Ok(Effect::Begins(Outlook::Open)));
}

#[test]
fn corners_come_in_corner_order() {
    let expected = vec![line(-1, 95, 5), line(1, 70, 10), line(3, -30, 10), line(0, 9, 1)];
    assert_eq!(corners(&example(), 5), Ok(expected));
    assert_eq!(corners(&example(), 1), Ok(vec![]));
    assert_eq!(corners(&example(), 0), Err(9));
}

#[test]
fn one_range_is_open() {
    let mut trace = example();
    trace.times.truncate(1);
    assert_eq!(segment(&trace), Err(10));
    trace.lows.truncate(1);
    trace.highs.truncate(1);
    assert_eq!(segment(&trace).unwrap()[0].outlook, Outlook::Open);
}

/// The first so many ranges of a trace.
fn start_of(trace: Trace, count: usize) -> Trace {
    let Trace { mut times, mut lows, mut highs, .. } = trace;
    times.truncate(count);
    lows.truncate(count);
    highs.truncate(count);
    Trace { times, lows, highs, ..trace }
}

/// The example's ranges up to a count, and the effect of the next.
fn effect_after(count: usize) -> Result<Effect, u8> {
    let Trace { times, lows, highs, .. } = example();
    preview(&start_of(example(), count), times[count], lows[count], highs[count])
}

#[test]
fn a_preview_joins_or_begins() {
    let joined = Outlook::Lines { slow: line(1, 70, 10), fast: line(3, -30, 10), some: Some(77), all: Some(130) };
    assert_eq!(preview(&example(), 60, 13, 16), Ok(Effect::Joins(joined)));
    assert_eq!(preview(&example(), 60, 16, 18), Ok(Effect::Begins(Outlook::Open)));
}

#[test]
fn previews_tell_the_segments_to_come() {
    let segments = segment(&example()).unwrap();
    assert_eq!(effect_after(0), Ok(Effect::Begins(Outlook::Open)));
    assert!(matches!(effect_after(1), Ok(Effect::Joins(Outlook::Lines { .. }))));
    assert_eq!(effect_after(2), Ok(Effect::Joins(segments[0].outlook)));
    assert_eq!(effect_after(3), Ok(Effect::Begins(Outlook::Open)));
    assert_eq!(effect_after(4), Ok(Effect::Joins(segments[1].outlook)));
}

#[test]
fn a_preview_is_refused_as_the_longer_trace_is() {
    assert_eq!(preview(&example(), 60, -268_435_457, 16), Err(4));
    assert_eq!(preview(&example(), 50, 17, 16), Err(5));
    assert_eq!(preview(&example(), 50, 13, 16), Err(6));
    let mut trace = example();
    trace.highs[4] = 8;
    assert_eq!(preview(&trace, 50, 13, 268_435_457), Err(5));
    trace.level = i32::MIN;
    assert_eq!(preview(&trace, 50, 13, 16), Err(4));
    trace.highs.pop();
    assert_eq!(preview(&trace, 50, 13, 16), Err(10));
}

#[test]
fn a_full_list_comes_before_level_and_range() {
    let mut trace = example();
    for (count, number) in [(4095, 4), (4096, 7), (5000, 7)] {
        trace.times = vec![0; count];
        trace.lows = vec![0; count];
        trace.highs = vec![4; count];
        trace.level = i32::MAX;
        assert_eq!(preview(&trace, 0, 1, 0), Err(number));
    }
    trace.lows.push(0);
    assert_eq!(preview(&trace, 0, 1, 0), Err(10));
}

#[test]
fn a_latest_trend_begins_before_the_last_segment() {
    let outlook = Outlook::Lines { slow: line(-1, 95, 5), fast: line(1, 70, 10), some: Some(130), all: None };
    let corners = vec![line(-1, 95, 5), line(1, 70, 10), line(-1, 230, 20)];
    assert_eq!(latest(&example()), Ok(Trend { ranges: 3, outlook, corners }));
    assert_eq!(segment(&example()).map(|segments| segments[1].ranges), Ok(2));
}

#[test]
fn a_latest_trend_of_a_falling_trace() {
    let outlook = Outlook::Lines { slow: line(-1, 330, 10), fast: line(1, 105, 5), some: Some(130), all: None };
    let corners = vec![line(-1, 330, 10), line(1, 570, 20), line(1, 105, 5)];
    assert_eq!(latest(&beam()), Ok(Trend { ranges: 3, outlook, corners }));
}

#[test]
fn a_latest_trend_may_be_the_whole_trace() {
    let trend = latest(&start_of(example(), 3)).unwrap();
    assert_eq!((trend.ranges, trend.outlook), (3, segment(&example()).unwrap()[0].outlook));
    assert_eq!(Ok(trend.corners), corners(&example(), 3));
}

#[test]
fn a_latest_trend_of_one_range_or_none_is_open() {
    for count in [0, 1] {
        let open = Trend { ranges: count, outlook: Outlook::Open, corners: vec![] };
        assert_eq!(latest(&start_of(example(), count)), Ok(open));
    }
}

#[test]
fn a_trace_is_cut_from_its_end_into_as_many_runs() {
    for trace in [example(), beam()] {
        let mut rest = trace.times.len();
        let mut runs = Vec::new();
        while rest > 0 {
            runs.push(latest(&start_of(trace.clone(), rest)).unwrap().ranges);
            rest -= runs[runs.len() - 1];
        }
        assert_eq!((runs, segment(&trace).map(|segments| segments.len())), (vec![3, 2], Ok(2)));
    }
}

#[test]
fn a_latest_trend_is_refused_as_segments_are() {
    let mut trace = example();
    trace.times[4] = 40;
    assert_eq!((latest(&trace), segment(&trace)), (Err(6), Err(6)));
    trace.highs[2] = 9;
    assert_eq!((latest(&trace), segment(&trace)), (Err(5), Err(5)));
    trace.lows[2] = i32::MIN;
    assert_eq!((latest(&trace), segment(&trace)), (Err(4), Err(4)));
    trace.times.resize(4097, 0);
    assert_eq!((latest(&trace), segment(&trace)), (Err(10), Err(10)));
    trace.lows.resize(4097, 0);
    trace.highs.resize(4097, 0);
    assert_eq!((latest(&trace), segment(&trace)), (Err(7), Err(7)));
}

#[test]
fn a_slice_for_corners_that_is_too_short_changes_nothing() {
    for place in 0..3 {
        let (mut corners, mut trend) = (some_corners(), TOLD);
        corners[place].pop();
        let before = corners.clone();
        let told = lent::latest(service(2), example().ranges(), lines_in(&mut corners), trend_of(&mut trend));
        assert_eq!((told, corners, trend), (Err(8), before, TOLD));
    }
}

#[test]
fn corners_past_the_count_hold_what_they_held() {
    let (mut corners, mut trend) = (some_corners(), TOLD);
    let told = lent::latest(service(RISING), example().ranges(), lines_in(&mut corners), trend_of(&mut trend));
    assert_eq!((told, trend), (Ok(()), ([3, 3], [-1, 95, 5, 1, 70, 10], [130, NONE])));
    assert_eq!(corners.map(|list| list[2..5].to_vec()), [[-1, 77, 77], [230, 77, 77], [20, 77, 77]]);
}

#[test]
fn each_refusal_has_a_meaning() {
    for number in 0..=u8::MAX {
        let known = meaning(number) != "no refusal has this number";
        assert_eq!(known, (1..=14).contains(&number), "{number}");
    }
}

#[test]
fn a_refused_file_has_a_report() {
    assert_eq!(report(&[]), b"refused 1\n");
    let file = [&[1, 0, 1, 7, 2, 0, 4, 0, 0, 0, 20], &spot_field(10, NOT_A_NUMBER)[..]].concat();
    assert_eq!(report(&file), b"refused 11\n");
}

#[test]
fn a_column_that_is_too_short_changes_nothing() {
    let mut table = Table::holding(77);
    table.alls.truncate(SEGMENT_ROOM - 1);
    let before = table.clone();
    let mut count = 5;
    let refusal = lent::segment(service(RISING), example().ranges(), table.columns(), &mut count);
    assert_eq!((refusal, count), (Err(8), 5));
    assert_eq!(table, before);
}

#[test]
fn entries_past_the_count_hold_what_they_held() {
    let mut table = Table::holding(77);
    let mut count = 0;
    assert_eq!(lent::segment(service(RISING), example().ranges(), table.columns(), &mut count), Ok(()));
    assert_eq!((count, &table.alls[..3]), (2, &[64, NONE, 77][..]));
}

/// Calls a function as C may: with null and 0 for each slice that it reads, and for one of those that it fills.
macro_rules! call_without {
    ($missing:expr, $function:ident($($value:expr),*; $($read:ty),*; $($filled:ident),*; $($set:expr),*)) => {
        // SAFETY: a null pointer has the length 0 beside it. The others are slices' own, with their lengths, and what
        // is filled or set is borrowed as mutable, so it overlaps nothing else.
        unsafe {
            $function(
                $($value,)*
                $(null::<$read>(), 0,)*
                $(
                    if $missing == stringify!($filled) { null_mut() } else { $filled.as_mut_ptr() },
                    if $missing == stringify!($filled) { 0 } else { $filled.len() },
                )*
                $($set,)*
            )
        }
    };
}

macro_rules! over_columns {
    ($($column:ident: $number:ty,)*) => {
        const COLUMNS: &[&str] = &[$(stringify!($column)),*];

        fn segment_without(missing: &str, columns: Columns, count: &mut usize) -> u8 {
            let Columns { $($column),* } = columns;
            call_without!(missing, humoraki_segment(20, RISING, 1; u32, i32, i32; $($column),*; count))
        }
    };
}

segment_columns!(over_columns);

#[test]
fn read_takes_null_slices() {
    for (missing, number) in [("times", 8), ("lows", 8), ("highs", 8), ("nothing", 1)] {
        let (mut times, mut lows, mut highs) = ([77; READ_ROOM], [77; READ_ROOM], [77; READ_ROOM]);
        let (mut address, mut level, mut direction, mut step, mut ranges) = (77, 77, 77, 77, 77);
        let set = (&mut address, &mut level, &mut direction, &mut step, &mut ranges);
        let refusal =
            call_without!(missing, humoraki_read(; u8; times, lows, highs; set.0, set.1, set.2, set.3, set.4));
        assert_eq!(refusal, number);
        assert_eq!((times, lows, highs), ([77; READ_ROOM], [77; READ_ROOM], [77; READ_ROOM]));
        assert_eq!((address, level, direction, step, ranges), (77, 77, 77, 77, 77));
    }
}

#[test]
fn write_takes_null_slices() {
    let mut file = [77; WRITE_ROOM];
    let mut count = 77;
    assert_eq!(call_without!("file", humoraki_write(7, 20, RISING, 1; u32, i32, i32; file; &mut count)), 8);
    assert_eq!((file, count), ([77; WRITE_ROOM], 77));
    assert_eq!(call_without!("nothing", humoraki_write(7, 20, RISING, 1; u32, i32, i32; file; &mut count)), 0);
    assert_eq!(file[..count], [1, 0, 1, 7, 2, 0, 4, 0, 0, 0, 20]);
    assert_eq!(call_without!("nothing", humoraki_write(7, 20, FALLING, 60; u32, i32, i32; file; &mut count)), 0);
    assert_eq!(file[..count], [1, 0, 1, 7, 2, 0, 4, 0, 0, 0, 20, 4, 0, 1, 1, 5, 0, 4, 0, 0, 0, 60]);
}

#[test]
fn segment_takes_null_slices() {
    let mut table = Table::holding(77);
    let mut count = 77;
    for missing in COLUMNS {
        assert_eq!((segment_without(missing, table.columns(), &mut count), count), (8, 77));
    }
    assert_eq!((segment_without("nothing", table.columns(), &mut count), count), (0, 0));
    assert_eq!(table, Table::holding(77));
}

#[test]
fn corners_takes_null_slices() {
    for (missing, number) in [("ps", 8), ("qs", 8), ("ds", 8), ("nothing", 9)] {
        let (mut ps, mut qs, mut ds) = ([77; CORNER_ROOM], [77; CORNER_ROOM], [77; CORNER_ROOM]);
        let mut count = 77;
        assert_eq!(call_without!(missing, humoraki_corners(1; u32, i32, i32; ps, qs, ds; &mut count)), number);
        assert_eq!((ps, qs, ds), ([77; CORNER_ROOM], [77; CORNER_ROOM], [77; CORNER_ROOM]));
        assert_eq!(count, 77);
    }
}

/// The kind, the lines and the times that a preview is to set.
fn effect_of((kind, lines, times): &mut (u32, [i64; 6], [u64; 2])) -> EffectMut<'_> {
    let [slow_p, slow_q, slow_d, fast_p, fast_q, fast_d] = lines.each_mut();
    let [some, all] = times.each_mut();
    EffectMut { kind, slow_p, slow_q, slow_d, fast_p, fast_q, fast_d, some, all }
}

/// The number of a preview on null lists.
fn preview_without(low: i32, numbers: &mut (u32, [i64; 6], [u64; 2])) -> u8 {
    let EffectMut { kind, slow_p, slow_q, slow_d, fast_p, fast_q, fast_d, some, all } = effect_of(numbers);
    call_without!("nothing", humoraki_preview(
        20, RISING, 1; u32, i32, i32; ; 60, low, 16, kind, slow_p, slow_q, slow_d, fast_p, fast_q, fast_d, some, all
    ))
}

#[test]
fn preview_takes_null_slices() {
    let mut numbers = (77, [77; 6], [77; 2]);
    assert_eq!(preview_without(17, &mut numbers), 5);
    assert_eq!(numbers, (77, [77; 6], [77; 2]));
    assert_eq!(preview_without(13, &mut numbers), 0);
    assert_eq!(numbers, (BEGINS, [0; 6], [0; 2]));
}

/// What is told of a latest trend: how many ranges and corners it has, its lines and its times.
type Told = ([usize; 2], [i64; 6], [u64; 2]);

/// All of it before a call sets it.
const TOLD: Told = ([77; 2], [77; 6], [77; 2]);

fn trend_of((counts, lines, times): &mut Told) -> TrendMut<'_> {
    let [ranges, corners] = counts.each_mut();
    let [slow_p, slow_q, slow_d, fast_p, fast_q, fast_d] = lines.each_mut();
    let [some, all] = times.each_mut();
    TrendMut { ranges, slow_p, slow_q, slow_d, fast_p, fast_q, fast_d, some, all, corners }
}

/// Slices of the least length for the corners of a trend.
fn some_corners() -> [Vec<i64>; 3] {
    [(); 3].map(|()| vec![77; CORNER_ROOM])
}

fn lines_in([ps, qs, ds]: &mut [Vec<i64>; 3]) -> Lines<'_> {
    Lines { ps, qs, ds }
}

/// The number of Latest on null lists.
fn latest_without(missing: &str, [ps, qs, ds]: &mut [Vec<i64>; 3], told: &mut Told) -> u8 {
    let TrendMut { ranges, slow_p, slow_q, slow_d, fast_p, fast_q, fast_d, some, all, corners } = trend_of(told);
    call_without!(missing, humoraki_latest(
        20, RISING, 1; u32, i32, i32; ps, qs, ds;
        ranges, slow_p, slow_q, slow_d, fast_p, fast_q, fast_d, some, all, corners
    ))
}

#[test]
fn latest_takes_null_slices() {
    let (mut corners, mut trend) = (some_corners(), TOLD);
    for missing in ["ps", "qs", "ds"] {
        assert_eq!((latest_without(missing, &mut corners, &mut trend), trend), (8, TOLD));
    }
    assert_eq!(latest_without("nothing", &mut corners, &mut trend), 0);
    assert_eq!((corners, trend), (some_corners(), ([0; 2], [0; 6], [0; 2])));
}

#[test]
fn report_takes_null_slices() {
    let mut text = vec![77; REPORT_ROOM];
    let mut count = 77;
    assert_eq!(call_without!("text", humoraki_report(; u8; text; &mut count)), 8);
    assert_eq!((&text, count), (&vec![77; REPORT_ROOM], 77));
    assert_eq!(call_without!("nothing", humoraki_report(; u8; text; &mut count)), 0);
    assert_eq!(text[..count], *b"refused 1\n");
}
