//! The lines of readings, from the fields of a file that the library took.

use crate::lines::READING;
use humoraki::Trace;

const SPOT: u8 = 6;
const SPAN: u8 = 7;

/// Where the first and the second value of a field stand, and where it ends.
const LOW: usize = 7;
const HIGH: usize = 11;
const END: usize = 15;

/// Whether these range fields of a file, if there are any, are readings.
pub fn are_readings(fields: &[u8]) -> bool {
    matches!(fields.first(), Some(&SPOT | &SPAN))
}

/// A line for each field of a trace's readings.
pub fn text_of(trace: &Trace, fields: &[u8]) -> String {
    let mut text = String::new();
    let mut rest = fields;
    for ((time, low), high) in trace.times.iter().zip(&trace.lows).zip(&trace.highs) {
        let low = decimal(rest[LOW], *low);
        if rest[0] == SPOT {
            text += &format!("{READING} {time} {low}\n");
            rest = &rest[HIGH..];
        } else {
            text += &format!("{READING} {time} {low} {}\n", decimal(rest[HIGH], *high));
            rest = &rest[END..];
        }
    }
    text
}

/// A number of 256ths, exactly, with the sign that the first byte of its value has: minus zero keeps it.
fn decimal(first: u8, in_256ths: i32) -> String {
    let sign = if first >= 128 { "-" } else { "" };
    let (whole, parts) = (in_256ths.unsigned_abs() / 256, in_256ths.unsigned_abs() % 256);
    // A 256th is 0.00390625.
    let number = format!("{sign}{whole}.{:08}", parts * 390_625);
    number.trim_end_matches('0').trim_end_matches('.').to_string()
}
