//! Long traces by the formulas of crates/testing/src/shapes.rt.

use crate::trace::{LARGEST_VALUE, LEAST_VALUE, Lists, Range};

#[derive(Clone, Copy)]
pub enum Shape {
    Bowl,
    Waist,
    Parabola,
    Full,
    Zigzag,
    Drift,
    Swings,
}

/// A shape at times that begin with the first one, the gap between due times apart.
#[derive(Clone, Copy)]
pub struct Shaped {
    pub shape: Shape,
    pub first: u64,
    pub gap: u64,
}

/// First time and gap of 4,096 times that end with the last time of all: as far apart as they can be, and one apart.
pub const WIDE_FIRST: u64 = 4350;
pub const WIDE: u64 = 1_048_831;
pub const LATE_FIRST: u64 = 4_294_963_200;

/// The widest gap of ragged times.
pub const WIDE_RAGGED: u64 = 1_048_575;

impl Shaped {
    /// The first ranges, as lists; the highs may be fewer.
    pub fn lists(&self, count: usize, highs: usize) -> Lists {
        let ranges: Vec<Range> = (0..count as u64).map(|k| self.range(k)).collect();
        let mut lists = Lists::of(&ranges);
        lists.highs.truncate(highs);
        lists
    }

    fn range(&self, k: u64) -> Range {
        let Shaped { shape, first, gap } = *self;
        let (low, high) = ends(shape, k);
        let late = match shape {
            Shape::Drift | Shape::Swings => scattered(k, 1, gap),
            _ => 0,
        };
        // of a time after the last one, what is left of it in 32 bits
        Range { time: (first + k * gap + late) as u32, low, high }
    }
}

/// The low and the high of range k.
fn ends(shape: Shape, k: u64) -> (i32, i32) {
    let point = |value: i32| (value, value);
    match shape {
        Shape::Bowl => bowl(k, 5_000_000),
        Shape::Waist => bowl(k, 1),
        Shape::Parabola => point((k * k) as i32),
        Shape::Full => (LEAST_VALUE, LARGEST_VALUE),
        Shape::Zigzag => point(if k % 2 == 0 { LEAST_VALUE } else { LARGEST_VALUE }),
        Shape::Drift => {
            let bent = (k % 300) * (k % 300) / 900;
            let middle = (bent % 100) as i32 - 40;
            (middle - scattered(k, 2, 4) as i32, middle + scattered(k, 3, 5) as i32)
        }
        Shape::Swings => {
            let middle = LEAST_VALUE + 20_000_000 + 5_000_000 * (k % 100) as i32;
            (middle - scattered(k, 2, 9_999_991) as i32, middle + scattered(k, 3, 9_999_991) as i32)
        }
    }
}

fn bowl(k: u64, waist: u64) -> (i32, i32) {
    let away = k.abs_diff(2048);
    let height = (away * away + waist) as i32;
    (-height, height)
}

/// A number below the span in no visible order.
fn scattered(k: u64, salt: u64, span: u64) -> u64 {
    (k * k * 7919 + k * salt) % 9_999_991 % span
}
