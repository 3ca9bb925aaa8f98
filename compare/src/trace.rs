//! Traces as the scope has them, and their ranges as three lists that may be wrong.

pub const LAST_TIME: u32 = 4_294_967_295;
pub const LEAST_VALUE: i32 = -268_435_456;
pub const LARGEST_VALUE: i32 = 268_435_456;
pub const MOST_RANGES: usize = 4096;
pub const LARGEST_ADDRESS: u32 = 65_535;

/// The numbers of the two directions.
pub const RISING: u32 = 0;
pub const FALLING: u32 = 1;

/// The step of a file that says none, and the largest that there is.
pub const EVERY_SECOND: u32 = 1;
pub const LARGEST_STEP: u32 = 86_400;

/// What a call takes with lists to tell times, as a caller may hand it in: with any numbers.
#[derive(Clone, Copy, PartialEq, Eq, Debug)]
pub struct Service {
    pub level: i32,
    pub direction: u32,
    pub step: u32,
}

#[derive(Clone, Copy, PartialEq, Eq, Debug)]
pub struct Range {
    pub time: u32,
    pub low: i32,
    pub high: i32,
}

#[derive(Clone, PartialEq, Eq, Debug)]
pub struct Trace {
    pub address: u32,
    pub service: Service,
    pub ranges: Vec<Range>,
}

impl Service {
    pub const fn rising(level: i32) -> Service {
        Service { level, direction: RISING, step: EVERY_SECOND }
    }

    pub const fn falling(level: i32) -> Service {
        Service { direction: FALLING, ..Service::rising(level) }
    }

    pub const fn toward(self, direction: u32) -> Service {
        Service { direction, ..self }
    }

    pub const fn every(self, step: u32) -> Service {
        Service { step, ..self }
    }

    pub fn in_words(&self) -> String {
        format!("level {}, direction {}, step {}", self.level, self.direction, self.step)
    }
}

/// Three lists as a caller may hand them in: of any lengths, with any numbers.
#[derive(Clone, PartialEq, Eq, Debug, Default)]
pub struct Lists {
    pub times: Vec<u32>,
    pub lows: Vec<i32>,
    pub highs: Vec<i32>,
}

impl Lists {
    pub fn of(ranges: &[Range]) -> Lists {
        Lists {
            times: ranges.iter().map(|range| range.time).collect(),
            lows: ranges.iter().map(|range| range.low).collect(),
            highs: ranges.iter().map(|range| range.high).collect(),
        }
    }

    pub fn differ_in_length(&self) -> bool {
        self.times.len() != self.lows.len() || self.lows.len() != self.highs.len()
    }

    /// A copy with a range behind it: each list with one entry more.
    pub fn with(&self, range: &Range) -> Lists {
        let mut longer = self.clone();
        longer.times.push(range.time);
        longer.lows.push(range.low);
        longer.highs.push(range.high);
        longer
    }

    /// The ranges that all three lists reach.
    pub fn ranges(&self) -> Vec<Range> {
        let values = self.lows.iter().zip(&self.highs);
        let ranges = self.times.iter().zip(values);
        ranges.map(|(&time, (&low, &high))| Range { time, low, high }).collect()
    }

    /// A line `time low high` for each place, `-` where a list is too short.
    pub fn in_words(&self) -> String {
        fn entry<T: ToString>(list: &[T], place: usize) -> String {
            list.get(place).map_or("-".to_string(), T::to_string)
        }
        let count = self.times.len().max(self.lows.len()).max(self.highs.len());
        let line = |place: usize| {
            let time = entry(&self.times, place);
            let low = entry(&self.lows, place);
            let high = entry(&self.highs, place);
            format!("{time} {low} {high}\n")
        };
        (0..count).map(line).collect()
    }
}
