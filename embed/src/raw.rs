//! The functions of the static libraries as C sees them; `levelbook.h` says the same. Nothing checks these declarations against the source in crates/.

/// A section as it is lent: its height difference Q in quarter mm, its distance R in half dm.
#[repr(C)]
#[derive(Clone, Copy, Debug, PartialEq, Eq)]
pub struct Leg {
    pub height: i64,
    pub distance: i64,
}

/// A point for the plotter: its distance from the start in half dm, and its raw height in the unit of Q.
#[repr(C)]
#[derive(Clone, Copy, Debug, PartialEq)]
pub struct Pair {
    pub distance: f64,
    pub height: f64,
}

extern "C" {
    pub fn level_reduce(text: *const u8, text_length: usize, report: *mut u8, report_length: usize, written: *mut usize) -> u8;
    pub fn level_adjust(legs: *const Leg, count: usize, start: i64, end: i64, prints: i64, heights: *mut i64, places: usize) -> u8;
    pub fn level_run(calls: *const i64, count: usize, numbers: *mut u8, answers: usize, figures: *mut i64, places: usize) -> usize;
    pub fn level_round_half_even(n: i64, d: i64) -> i64;
    pub fn level_root_within(a: u16, x: i64, b: u16, l: i64) -> bool;
    pub fn level_profile(text: *const u8, text_length: usize, pairs: *mut u8, pairs_length: usize, written: *mut usize) -> u8;
    pub fn level_difference(from: Pair, to: Pair) -> Pair;
    pub fn level_drift(text: *const u8, text_length: usize, window: i64, firsts: *mut usize, places: usize, count: *mut usize) -> u8;
    pub fn level_judge(
        first: *const u8,
        first_length: usize,
        second: *const u8,
        second_length: usize,
        order: i64,
        instrument: i64,
        g: i64,
        s: i64,
        judgement: *mut u8,
    ) -> u8;
}
