//! The functions of libhumoraki.a, declared for Rust as `humoraki.h` has them.
//!
//! Nothing checks these declarations against the header, so they stand here alone: change both files together.

use super::Entry;

// A slice's pointer and length share a line, as in the header.
#[rustfmt::skip]
macro_rules! declare {
    ($($column:ident: $number:ty,)*) => {
        #[link(name = "humoraki", kind = "static")]
        unsafe extern "C" {
            pub fn humoraki_read(
                file: *const u8, file_len: usize,
                times: *mut u32, times_len: usize,
                lows: *mut i32, lows_len: usize,
                highs: *mut i32, highs_len: usize,
                address: *mut u32, level: *mut i32, direction: *mut u32, step: *mut u32, ranges: *mut usize,
            ) -> u8;

            pub fn humoraki_write(
                address: u32, level: i32, direction: u32, step: u32,
                times: *const u32, times_len: usize,
                lows: *const i32, lows_len: usize,
                highs: *const i32, highs_len: usize,
                file: *mut u8, file_len: usize,
                count: *mut usize,
            ) -> u8;

            pub fn humoraki_segment(
                level: i32, direction: u32, step: u32,
                times: *const u32, times_len: usize,
                lows: *const i32, lows_len: usize,
                highs: *const i32, highs_len: usize,
                $($column: *mut $number, _: usize,)*
                count: *mut usize,
            ) -> u8;

            pub fn humoraki_corners(
                k: usize,
                times: *const u32, times_len: usize,
                lows: *const i32, lows_len: usize,
                highs: *const i32, highs_len: usize,
                ps: *mut i64, ps_len: usize,
                qs: *mut i64, qs_len: usize,
                ds: *mut i64, ds_len: usize,
                count: *mut usize,
            ) -> u8;

            pub fn humoraki_preview(
                level: i32, direction: u32, step: u32,
                times: *const u32, times_len: usize,
                lows: *const i32, lows_len: usize,
                highs: *const i32, highs_len: usize,
                time: u32, low: i32, high: i32,
                kind: *mut u32,
                slow_p: *mut i64, slow_q: *mut i64, slow_d: *mut i64,
                fast_p: *mut i64, fast_q: *mut i64, fast_d: *mut i64,
                some: *mut u64, all: *mut u64,
            ) -> u8;

            pub fn humoraki_latest(
                level: i32, direction: u32, step: u32,
                times: *const u32, times_len: usize,
                lows: *const i32, lows_len: usize,
                highs: *const i32, highs_len: usize,
                ps: *mut i64, ps_len: usize,
                qs: *mut i64, qs_len: usize,
                ds: *mut i64, ds_len: usize,
                ranges: *mut usize,
                slow_p: *mut i64, slow_q: *mut i64, slow_d: *mut i64,
                fast_p: *mut i64, fast_q: *mut i64, fast_d: *mut i64,
                some: *mut u64, all: *mut u64,
                corners: *mut usize,
            ) -> u8;

            pub fn humoraki_report(
                file: *const u8, file_len: usize,
                text: *mut u8, text_len: usize,
                count: *mut usize,
            ) -> u8;

            pub fn humoraki_add(
                entries: *mut Entry, entries_len: usize,
                addresses: *mut u32, addresses_len: usize,
                times: *mut u32, times_len: usize,
                lows: *mut i32, lows_len: usize,
                highs: *mut i32, highs_len: usize,
                address: u32, time: u32, low: i32, high: i32,
            ) -> u8;

            pub fn humoraki_head_ranges(
                entries: *const Entry, entries_len: usize,
                addresses: *const u32, addresses_len: usize,
                times: *const u32, times_len: usize,
                lows: *const i32, lows_len: usize,
                highs: *const i32, highs_len: usize,
                address: u32,
                into_times: *mut u32, into_times_len: usize,
                into_lows: *mut i32, into_lows_len: usize,
                into_highs: *mut i32, into_highs_len: usize,
                count: *mut usize,
            ) -> u8;
        }
    };
}

segment_columns!(declare);
