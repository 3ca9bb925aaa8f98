//! Readings of a logger, as lines have them and as a file does: decimal numbers that are whole in 256ths, and values in
//! binary32. No number is rounded on the way.

use crate::lines::Range;

/// A number of a reading: its bits in binary32, and what it is in 256ths.
#[derive(Clone, Copy)]
pub struct Value {
    bits: u32,
    in_256ths: i32,
}

/// A reading at a time: a spot value, which has no high, or a span.
pub struct Reading {
    pub time: u32,
    pub low: Value,
    pub high: Option<Value>,
}

/// The greatest value, in 256ths; the least is as far below 0.
const GREATEST: u64 = 268_435_456;
const EXPECTED: &str = "expected -1048576 to 1048576, in 256ths that binary32 holds";

/// A 256th has so many decimals, so no multiple of it has more.
const DECIMALS: usize = 8;
const UNIT: u64 = 100_000_000;

impl Value {
    /// The value that a word gives, or what is wrong with it.
    pub fn parse(name: &str, word: &str) -> Result<Value, String> {
        let (sign, size) = match word.strip_prefix('-') {
            Some(size) => (1, size),
            None => (0, word.strip_prefix('+').unwrap_or(word)),
        };
        let size = size_of(size).and_then(held).map_err(|how| format!("{name} {word} {how}; {EXPECTED}"))?;
        // A whole number of 256ths that binary32 holds: the quotient is exact.
        let bits = (size as f32 / 256.0).to_bits() | sign << 31;
        Ok(Value { bits, in_256ths: if sign == 1 { -size } else { size } })
    }
}

impl Reading {
    pub fn range(&self) -> Range {
        let low = self.low.in_256ths;
        Range { time: self.time, low, high: self.high.map_or(low, |high| high.in_256ths) }
    }

    /// The reading as a field of a file: tag 6 with a spot value, tag 7 with a span.
    pub fn field(&self) -> Vec<u8> {
        let (time, low) = (self.time.to_be_bytes(), self.low.bits.to_be_bytes());
        match self.high {
            None => [&[6, 0, 8], &time[..], &low].concat(),
            Some(high) => [&[7, 0, 12], &time[..], &low, &high.bits.to_be_bytes()].concat(),
        }
    }
}

/// A decimal number without a sign, in 256ths, or how it is none.
fn size_of(word: &str) -> Result<u64, &'static str> {
    let (whole, decimals) = word.split_once('.').unwrap_or((word, "0"));
    let is_number = |digits: &str| !digits.is_empty() && digits.bytes().all(|byte| byte.is_ascii_digit());
    if !is_number(whole) || !is_number(decimals) {
        return Err("is not a decimal number");
    }
    let decimals = decimals.trim_end_matches('0');
    // Eight digits always parse.
    let units = if decimals.len() > DECIMALS { None } else { format!("{decimals:0<DECIMALS$}").parse::<u64>().ok() };
    let Some(units) = units.filter(|units| 256 * units % UNIT == 0) else {
        return Err("is not a whole number of 256ths");
    };
    let size = whole.parse::<u64>().ok().and_then(|whole| whole.checked_mul(256));
    let size = size.map(|size| size.saturating_add(256 * units / UNIT));
    size.filter(|size| *size <= GREATEST).ok_or("is outside its span")
}

/// The same number if binary32 holds it, with 24 digits in base two.
fn held(size: u64) -> Result<i32, &'static str> {
    if size as f32 as u64 == size { Ok(size as i32) } else { Err("has more digits than binary32 holds") }
}
