//! Trials as lines of text: numbers in four lists, parted by `|`: parameters, times, lows and highs. Of a number its
//! last 32 bits count, so that 2147483648 among the lows is the least number that a caller has.

use crate::trace::{EVERY_SECOND, Lists, RISING, Service};

pub struct Trial {
    parameters: Vec<u32>,
    pub lists: Lists,
}

impl Trial {
    /// Nothing if the line is not four lists of numbers.
    pub fn from_line(line: &str) -> Option<Trial> {
        let lists = line.split('|').map(numbers).collect::<Option<Vec<_>>>()?;
        let [parameters, times, lows, highs] = lists.try_into().ok()?;
        Some(Trial { parameters, lists: Lists { times, lows: signed(lows), highs: signed(highs) } })
    }

    /// The first parameter as a place, if there is one.
    pub fn first_place(&self) -> Option<usize> {
        self.parameters.first().map(|number| *number as usize)
    }

    /// The first parameter as a level, the third as a direction and the fourth as a step; 0, 0 and 1 for those that are
    /// not there.
    pub fn service(&self) -> Service {
        let parameter = |place, without| self.parameters.get(place).copied().unwrap_or(without);
        Service { level: parameter(0, 0) as i32, direction: parameter(2, RISING), step: parameter(3, EVERY_SECOND) }
    }

    /// What a call answers that fills so many slices: the second parameter is the place of one that is too short.
    pub fn unless_short<T>(&self, places: usize, answer: Result<T, u8>) -> Result<T, u8> {
        match self.parameters.get(1) {
            Some(short) if (*short as usize) < places => Err(8),
            _ => answer,
        }
    }
}

fn numbers(list: &str) -> Option<Vec<u32>> {
    let number = |word: &str| word.parse().ok().map(|number: i64| number as u32);
    list.split_whitespace().map(number).collect()
}

fn signed(numbers: Vec<u32>) -> Vec<i32> {
    numbers.into_iter().map(|number| number as i32).collect()
}
