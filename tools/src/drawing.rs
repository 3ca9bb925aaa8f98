//! The picture of a trace: its ranges, its segments with their slow and fast lines, the service
//! level, and for the last segments how the fitting lines go on until they reach the level; the
//! latest trend in the same manner, if it is asked for.

use crate::axes::{Axes, Frame, multiples, ticks, widened};
use crate::lines::{Lines, NO_STEP, Range};
use crate::report_text::{Kind, Line, Outlook, Run};
use crate::svg::{Pen, Point, Shapes, Side};

const WIDTH: f64 = 960.0;
const MARGIN: f64 = 24.0;
const FRAME: Frame = Frame { left: 96.0, right: 830.0, top: 92.0, bottom: 400.0 };

/// Below the time axis is a row for each outlook, and then the legend.
const FIRST_ROW: f64 = FRAME.bottom + 52.0;
const ROW: f64 = 26.0;
const LEGEND: f64 = 60.0;

/// So many segments have their outlooks drawn, the last ones; more would hide each other.
const OUTLOOKS: usize = 2;

/// The view goes on after the trace, for this share of the trace's length at least and at most.
const NEAREST: f64 = 0.25;
const FARTHEST: f64 = 3.0;

/// Colours that colour-blind readers tell apart; the segments take them by turns, and the latest
/// trend has the ink's.
const COLOURS: [&str; 4] = ["#0072b2", "#b35900", "#007a5a", "#a3417c"];
const INK: &str = "#24292f";
const FAINT: &str = "#e4e8ec";
const LEVEL: &str = "#c1121f";

const WHOLE: &str = "none";
const DASHED: &str = "7 4";
const DOTTED: &str = "2 3";

/// A range's bar is as wide as this; its cap reaches to each side for so many of its widths.
const NARROWEST: f64 = 0.6;
const WIDEST: f64 = 2.4;
const CAP: f64 = 2.0;

/// The multiples of a step have marks on the time axis, so long, if there are at most so many in the view.
const MARK: f64 = 6.0;
const MOST_MARKS: f64 = 100.0;

/// A letter is about this wide, and a text this far from what it names.
const LETTER: f64 = 6.9;
const GAP: f64 = 10.0;

struct Drawing {
    axes: Axes,
    level: f64,
    falling: bool,
    bar: f64,
    shapes: Shapes,
}

/// A run whose outlook is drawn, and the height of its row.
struct Shown<'a> {
    y: f64,
    run: &'a Run,
    outlook: &'a Outlook,
}

/// The picture of a trace that has ranges, from the segments of its report, and with its latest
/// trend if that is given.
pub fn picture(trace: &Lines, segments: &[Run], latest: Option<&Run>) -> String {
    let shown = last_outlooks(segments, latest);
    let axes = axes_of(trace, &shown);
    let mut drawing = Drawing {
        bar: bar_width(&axes, &trace.ranges),
        axes,
        level: f64::from(trace.level),
        falling: trace.falling,
        shapes: Shapes::default(),
    };
    drawing.bands(segments);
    latest.into_iter().for_each(|run| drawing.strip(run));
    drawing.drops(&shown);
    drawing.time_axis();
    drawing.shifts(trace.step);
    drawing.signal_axis();
    drawing.fans(&shown);
    drawing.level_line(trace.level);
    drawing.lines(segments.iter().chain(latest));
    drawing.ranges(&trace.ranges);
    drawing.rows(&shown);
    let below = FIRST_ROW + ROW * shown.len() as f64;
    drawing.legend(below + 0.4 * LEGEND);
    let title = title_of(trace);
    drawing.shapes.heading((MARGIN, 40.0), INK, &title);
    drawing.shapes.picture(WIDTH, below + LEGEND, &title)
}

fn title_of(trace: &Lines) -> String {
    let falling = if trace.falling { ", falling" } else { "" };
    let step = if trace.step == NO_STEP { String::new() } else { format!(", step {}", trace.step) };
    let unit = if trace.readings.is_empty() { "" } else { ", in 256ths" };
    format!("detector {}, service level {}{falling}{step}{unit}", trace.address, trace.level)
}

/// Those of the last segments, and of the latest trend; what is open has none.
fn last_outlooks<'a>(segments: &'a [Run], latest: Option<&'a Run>) -> Vec<Shown<'a>> {
    let with_outlook = |run: &'a Run| Some((run, run.outlook.as_ref()?));
    let outlooks: Vec<(&Run, &Outlook)> = segments.iter().filter_map(with_outlook).collect();
    let first = outlooks.len().saturating_sub(OUTLOOKS);
    let rows = outlooks[first..].iter().copied().chain(latest.and_then(with_outlook)).zip(0..);
    rows.map(|((run, outlook), row)| Shown { y: FIRST_ROW + ROW * f64::from(row), run, outlook }).collect()
}

fn axes_of(trace: &Lines, shown: &[Shown]) -> Axes {
    let (first, last) = span(trace.ranges.iter().map(|range| f64::from(range.time)));
    let length = last - first;
    let ahead = shown
        .iter()
        .flat_map(|shown| [shown.outlook.some, shown.outlook.all])
        .flatten()
        .map(|time| f64::from(time) - last)
        .fold(NEAREST * length, f64::max);
    let values = trace.ranges.iter().flat_map(|range| [range.low, range.high]).chain([trace.level]);
    Axes {
        frame: FRAME,
        times: widened((first, last + ahead.min(FARTHEST * length)), 0.04),
        values: widened(span(values.map(f64::from)), 0.08),
    }
}

/// How wide the bars of ranges are: less where they stand close together.
fn bar_width(axes: &Axes, ranges: &[Range]) -> f64 {
    let (first, last) = span(ranges.iter().map(|range| axes.x(f64::from(range.time))));
    match ranges.len() - 1 {
        0 => WIDEST,
        gaps => (0.18 * (last - first) / gaps as f64).clamp(NARROWEST, WIDEST),
    }
}

/// The least and the greatest of some numbers.
fn span(numbers: impl Iterator<Item = f64>) -> (f64, f64) {
    let start = (f64::INFINITY, f64::NEG_INFINITY);
    numbers.fold(start, |(least, greatest), number| (least.min(number), greatest.max(number)))
}

fn name(run: &Run) -> String {
    match run.kind {
        Kind::Segment(place) => format!("segment {place}"),
        Kind::Latest => "latest".to_string(),
    }
}

fn colour(run: &Run) -> &'static str {
    match run.kind {
        Kind::Segment(place) => COLOURS[(place + COLOURS.len() - 1) % COLOURS.len()],
        Kind::Latest => INK,
    }
}

fn value(line: Line, time: f64) -> f64 {
    (line.p * time + line.q) / line.d
}

/// When a line that is not level has a value.
fn meets(line: Line, value: f64) -> f64 {
    (line.d * value - line.q) / line.p
}

fn told(name: &str, time: Option<u32>) -> String {
    match time {
        Some(time) => format!("{name} {time}"),
        None => format!("{name} none"),
    }
}

impl Drawing {
    fn at(&self, time: f64, value: f64) -> Point {
        (self.axes.x(time), self.axes.y(value))
    }

    /// Where a time stands, or the right edge if there is none or the view ends before it.
    fn end(&self, time: Option<u32>) -> f64 {
        let x = time.map(|time| self.axes.x(f64::from(time)));
        x.map_or(FRAME.right, |x| x.min(FRAME.right))
    }

    /// Where a run begins and ends, with the caps of its ranges.
    fn edges(&self, run: &Run) -> (f64, f64) {
        let cap = CAP * self.bar;
        (self.axes.x(f64::from(run.times.0)) - cap, self.axes.x(f64::from(run.times.1)) + cap)
    }

    /// A tinted band for each segment, with its name above if there is room.
    fn bands(&mut self, segments: &[Run]) {
        for segment in segments {
            let (left, right) = self.edges(segment);
            let corners = ((left, FRAME.top), (right, FRAME.bottom));
            self.shapes.block(corners, colour(segment), 0.09);
            let name = name(segment);
            if right - left > LETTER * name.len() as f64 {
                let above = ((left + right) / 2.0, FRAME.top - 14.0);
                self.shapes.text(above, Side::Around, colour(segment), &name);
            }
        }
    }

    /// A strip above the names of the segments, with its own name where the trace has ended.
    fn strip(&mut self, run: &Run) {
        let (left, right) = self.edges(run);
        let y = FRAME.top - 30.0;
        self.shapes.block(((left, y - 2.0), (right, y + 2.0)), colour(run), 1.0);
        self.shapes.text((right + GAP, y), Side::Right, colour(run), &name(run));
    }

    /// A dotted stroke from the level down to its row, for each time in the view.
    fn drops(&mut self, shown: &[Shown]) {
        let level = self.axes.y(self.level);
        for Shown { y, run, outlook } in shown {
            for x in [outlook.some, outlook.all].map(|time| self.end(time)) {
                if x < FRAME.right {
                    let dots = pen(colour(run), 1.3, DOTTED);
                    self.shapes.stroke((x, level), (x, *y), dots);
                }
            }
        }
    }

    fn time_axis(&mut self) {
        let y = FRAME.bottom + 18.0;
        for time in ticks(self.axes.times, 8.0) {
            let x = self.axes.x(time);
            let grid = pen(FAINT, 1.0, WHOLE);
            self.shapes.stroke((x, FRAME.top), (x, FRAME.bottom), grid);
            self.shapes.text((x, y), Side::Around, INK, &time.to_string());
        }
        let (start, end) = ((FRAME.left, FRAME.bottom), (FRAME.right, FRAME.bottom));
        self.shapes.stroke(start, end, pen(INK, 1.0, WHOLE));
        self.shapes.text((FRAME.left - GAP, y), Side::Left, INK, "time");
    }

    /// A mark on the time axis for each multiple of a step; of a trace without a step every second is one.
    fn shifts(&mut self, step: u32) {
        if step == NO_STEP {
            return;
        }
        let (least, greatest) = self.axes.times;
        let (least, step) = (least.max(0.0), f64::from(step));
        if (greatest - least) / step > MOST_MARKS {
            return;
        }
        for x in multiples((least, greatest), step).into_iter().map(|time| self.axes.x(time)) {
            self.shapes.stroke((x, FRAME.bottom), (x, FRAME.bottom + MARK), pen(INK, 1.3, WHOLE));
        }
    }

    fn signal_axis(&mut self) {
        let x = FRAME.left - GAP;
        for value in ticks(self.axes.values, 6.0) {
            let y = self.axes.y(value);
            let grid = pen(FAINT, 1.0, WHOLE);
            self.shapes.stroke((FRAME.left, y), (FRAME.right, y), grid);
            self.shapes.text((x, y), Side::Left, INK, &value.to_string());
        }
        self.shapes.text((x, FRAME.top - 14.0), Side::Left, INK, "signal");
    }

    /// Where the fitting lines go on after a run, as long as they have not reached the level, or where they fall back
    /// behind it.
    fn fans(&mut self, shown: &[Shown]) {
        for Shown { run, outlook, .. } in shown {
            let Outlook { slow, fast, .. } = **outlook;
            let last = f64::from(run.times.1);
            let (slow_end, fast_end) = (self.leaves(slow, last), self.leaves(fast, last));
            let mut times = vec![last, slow_end, fast_end, self.axes.times.1];
            times.extend([slow, fast].into_iter().filter_map(|line| self.falls_back(line, last)));
            times.sort_by(f64::total_cmp);
            let edge = |line, time: &f64| self.at(*time, self.shown_value(line, *time));
            let mut corners: Vec<Point> = times.iter().map(|time| edge(slow, time)).collect();
            corners.extend(times.iter().rev().map(|time| edge(fast, time)));
            self.shapes.area(&corners, colour(run), 0.16);
            self.line(slow, (last, slow_end), pen(colour(run), 1.3, DASHED));
            self.line(fast, (last, fast_end), pen(colour(run), 1.3, WHOLE));
        }
    }

    /// When a line, from a time on, reaches the level, the edge of the view away from it or its end. One that has
    /// reached the level and falls back goes on to that edge too.
    fn leaves(&self, line: Line, from: f64) -> f64 {
        let end = self.axes.times.1;
        if self.recedes(line) {
            meets(line, self.away_from_level()).min(end)
        } else if self.is_reached(value(line, from)) {
            from
        } else if line.p == 0.0 {
            end
        } else {
            meets(line, self.level).min(end)
        }
    }

    /// When a line that has reached the level at a time falls back behind it, if it does so in the view.
    fn falls_back(&self, line: Line, from: f64) -> Option<f64> {
        let back = self.recedes(line) && self.is_reached(value(line, from));
        Some(meets(line, self.level)).filter(|time| back && *time < self.axes.times.1)
    }

    fn recedes(&self, line: Line) -> bool {
        if self.falling { line.p > 0.0 } else { line.p < 0.0 }
    }

    fn is_reached(&self, value: f64) -> bool {
        if self.falling { value <= self.level } else { value >= self.level }
    }

    /// The lower edge of the view, from which a signal rises to the level; the upper one if it falls.
    fn away_from_level(&self) -> f64 {
        let (lower, upper) = self.axes.values;
        if self.falling { upper } else { lower }
    }

    /// A line's value, or the nearest one between that edge of the view and the level.
    fn shown_value(&self, line: Line, time: f64) -> f64 {
        let away = self.away_from_level();
        value(line, time).clamp(away.min(self.level), away.max(self.level))
    }

    fn line(&mut self, line: Line, (from, to): (f64, f64), pen: Pen) {
        let start = self.at(from, value(line, from));
        let end = self.at(to, value(line, to));
        self.shapes.stroke(start, end, pen);
    }

    fn level_line(&mut self, level: i32) {
        let y = self.axes.y(self.level);
        let (start, end) = ((FRAME.left, y), (FRAME.right, y));
        self.shapes.stroke(start, end, pen(LEVEL, 1.6, WHOLE));
        let beside = (FRAME.right + GAP, y);
        self.shapes.text(beside, Side::Right, LEVEL, &format!("level {level}"));
    }

    /// The slow and the fast line of each run, from its first range to its last.
    fn lines<'a>(&mut self, runs: impl Iterator<Item = &'a Run>) {
        for run in runs {
            let times = (f64::from(run.times.0), f64::from(run.times.1));
            if let Some(Outlook { slow, fast, .. }) = run.outlook {
                self.line(slow, times, pen(colour(run), 2.2, DASHED));
                self.line(fast, times, pen(colour(run), 2.2, WHOLE));
            }
        }
    }

    fn ranges(&mut self, ranges: &[Range]) {
        for range in ranges {
            let low = self.at(f64::from(range.time), f64::from(range.low));
            let high = self.at(f64::from(range.time), f64::from(range.high));
            bar(&mut self.shapes, low, high, self.bar);
        }
    }

    /// A row for each outlook, with the service window from *some* to *all*.
    fn rows(&mut self, shown: &[Shown]) {
        for Shown { y, run, outlook } in shown {
            let beside = (FRAME.left - GAP, *y);
            let colour = colour(run);
            self.shapes.text(beside, Side::Left, colour, &name(run));
            self.window(*y, outlook, colour);
        }
    }

    fn window(&mut self, y: f64, outlook: &Outlook, colour: &str) {
        let (some, all) = (told("some", outlook.some), told("all", outlook.all));
        let (from, mut to) = (self.end(outlook.some), self.end(outlook.all));
        let shapes = &mut self.shapes;
        if from == FRAME.right {
            shapes.text((from, y), Side::Left, colour, &format!("{some}, {all}"));
            return;
        }
        shapes.block(((from - 1.0, y - 4.0), (to + 1.0, y + 4.0)), colour, 1.0);
        if to == FRAME.right {
            let tip = [(to, y - 7.0), (to + 8.0, y), (to, y + 7.0)];
            shapes.area(&tip, colour, 1.0);
            to += 8.0;
        }
        shapes.text((from - GAP, y), Side::Left, colour, &some);
        shapes.text((to + GAP, y), Side::Right, colour, &all);
    }

    fn legend(&mut self, y: f64) {
        let mut x = MARGIN;
        for (name, sign) in SIGNS {
            sign(&mut self.shapes, x, y);
            x += SIGN + GAP;
            self.shapes.text((x, y), Side::Right, INK, name);
            x += LETTER * name.len() as f64 + 2.0 * GAP;
        }
    }
}

fn pen<'a>(colour: &'a str, width: f64, dashes: &'static str) -> Pen<'a> {
    Pen { colour, width, dashes }
}

/// A range: an upright bar with a cap at each end.
fn bar(shapes: &mut Shapes, low: Point, high: Point, width: f64) {
    let ink = pen(INK, width, WHOLE);
    shapes.stroke(low, high, ink);
    for (x, y) in [low, high] {
        shapes.stroke((x - CAP * width, y), (x + CAP * width, y), ink);
    }
}

/// What the legend explains, each with a sign of this width.
const SIGN: f64 = 26.0;
type DrawSign = fn(&mut Shapes, f64, f64);
const SIGNS: [(&str, DrawSign); 6] = [
    ("range", |shapes, x, y| {
        let middle = x + SIGN / 2.0;
        bar(shapes, (middle, y + 8.0), (middle, y - 8.0), WIDEST);
    }),
    ("slow line", |shapes, x, y| {
        shapes.stroke((x, y), (x + SIGN, y), pen(INK, 2.2, DASHED));
    }),
    ("fast line", |shapes, x, y| {
        shapes.stroke((x, y), (x + SIGN, y), pen(INK, 2.2, WHOLE));
    }),
    ("fitting lines to come", |shapes, x, y| {
        shapes.block(((x, y - 7.0), (x + SIGN, y + 7.0)), INK, 0.16);
    }),
    ("service level", |shapes, x, y| {
        shapes.stroke((x, y), (x + SIGN, y), pen(LEVEL, 1.6, WHOLE));
    }),
    ("from some to all", |shapes, x, y| {
        shapes.block(((x, y - 4.0), (x + SIGN, y + 4.0)), INK, 1.0);
    }),
];
