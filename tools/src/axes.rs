//! Where times and values stand in a picture.

/// The part of a picture between the axes, in pixels from the top left.
#[derive(Clone, Copy)]
pub struct Frame {
    pub left: f64,
    pub right: f64,
    pub top: f64,
    pub bottom: f64,
}

/// A frame, and the times and values that it shows, from and to.
pub struct Axes {
    pub frame: Frame,
    pub times: (f64, f64),
    pub values: (f64, f64),
}

impl Axes {
    pub fn x(&self, time: f64) -> f64 {
        let Frame { left, right, .. } = self.frame;
        left + share(self.times, time) * (right - left)
    }

    pub fn y(&self, value: f64) -> f64 {
        let Frame { top, bottom, .. } = self.frame;
        bottom - share(self.values, value) * (bottom - top)
    }
}

fn share((least, greatest): (f64, f64), number: f64) -> f64 {
    (number - least) / (greatest - least)
}

/// A span with a share of its length added at both ends. A span without length gets one.
pub fn widened((least, greatest): (f64, f64), added: f64) -> (f64, f64) {
    let more = added * (greatest - least).max(1.0);
    (least - more, greatest + more)
}

/// Round numbers in a span, not many more than so many: the multiples of a step that is 1, 2 or 5
/// times a power of ten.
pub fn ticks(span: (f64, f64), about: f64) -> Vec<f64> {
    let (least, greatest) = span;
    let rough = (greatest - least) / about;
    // Times and values are whole numbers, so that a step below 1 would mark none.
    let mut power = 1.0;
    while 10.0 * power <= rough {
        power *= 10.0;
    }
    let steps = [power, 2.0 * power, 5.0 * power];
    let step = steps.into_iter().find(|step| *step >= rough);
    multiples(span, step.unwrap_or(10.0 * power))
}

/// The multiples of a step in a span.
pub fn multiples((least, greatest): (f64, f64), step: f64) -> Vec<f64> {
    let (first, last) = ((least / step).ceil() as i64, (greatest / step).floor() as i64);
    (first..=last).map(|count| count as f64 * step).collect()
}
