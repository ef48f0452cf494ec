//! The limits of documents 01 and 02, and what is computed for a line from its sums.

use crate::constants::Staffs;
use crate::fraction::{round_even, within};

/// A run holds at most this many stations (document 01, refusal 22).
pub const STATIONS_OF_A_RUN: usize = 200;

/// A line holds at most this many sections (document 01, refusal 31).
pub const SECTIONS_OF_A_LINE: usize = 64;

/// For D a shorter R, in half dm, counts as this one (document 02, W-201).
pub const SHORTEST_FOR_D: i128 = 2_000;

/// Limits on a station, all inclusive, on absolute values, sights and d in dm, the others
/// in mm (document 01, "The station").
#[derive(Clone, Debug, PartialEq, Eq)]
pub struct Limits {
    pub sight: i128,
    pub d: i128,
    pub accumulated: i128,
    pub e: i128,
    pub faces: i128,
}

/// The table's column for an allowed order and instrument.
pub fn limits(order: i64, instrument: i64) -> Limits {
    let sight = match (order, instrument) {
        (3, 3) => 750,
        (3, _) => 1_000,
        (_, 3) => 1_000,
        (_, _) => 1_500,
    };
    if order == 3 {
        Limits { sight, d: 20, accumulated: 50, e: 2, faces: 3 }
    } else {
        Limits { sight, d: 30, accumulated: 100, e: 3, faces: 5 }
    }
}

/// What is levelled: a line of third or fourth order, or a spur (document 02, W-202).
#[derive(Clone, Copy, Debug, PartialEq, Eq)]
pub enum Class {
    Third,
    Fourth,
    Spur,
}

/// Sections out and back: D (half mm) keeps a D^2 <= b R with these a and b, R in half dm
/// and at least `SHORTEST_FOR_D`; T's limit for each section in hundredths of mm^2 per km.
#[derive(Clone, Debug, PartialEq, Eq)]
pub struct BothWays {
    pub agree: (i128, i128),
    pub accidental: i128,
}

/// A closing on a known height: W (quarter mm) keeps a W^2 <= b L with these a and b, L in half
/// dm; the longest line and the longest loop in km.
#[derive(Clone, Debug, PartialEq, Eq)]
pub struct KnownEnd {
    pub closure: (i128, i128),
    pub line: i128,
    pub whole_loop: i128,
}

/// What a class sets.
#[derive(Clone, Debug, PartialEq, Eq)]
pub struct Terms {
    pub order: i64,
    pub both_ways: Option<BothWays>,
    pub known_end: Option<KnownEnd>,
}

impl Class {
    pub const ALL: [Class; 3] = [Class::Third, Class::Fourth, Class::Spur];

    /// What LIN opens with this order.
    pub fn of_line(order: i64) -> Option<Class> {
        [Class::Third, Class::Fourth].into_iter().find(|one| one.order() == order)
    }

    /// What SPR opens with this order.
    pub fn of_spur(order: i64) -> Option<Class> {
        (order == Class::Spur.order()).then_some(Class::Spur)
    }

    /// 12 root km at third order, 20 root km at fourth, for W and for D alike.
    pub fn terms(self) -> Terms {
        match self {
            Class::Third => Terms {
                order: 3,
                both_ways: Some(BothWays { agree: (625, 18), accidental: 3_600 }),
                known_end: Some(KnownEnd { closure: (625, 72), line: 150, whole_loop: 200 }),
            },
            Class::Fourth => Terms {
                order: 4,
                both_ways: None,
                known_end: Some(KnownEnd { closure: (25, 8), line: 80, whole_loop: 100 }),
            },
            Class::Spur => Terms {
                order: 4,
                both_ways: Some(BothWays { agree: (25, 2), accidental: 10_000 }),
                known_end: None,
            },
        }
    }

    pub fn order(self) -> i64 {
        self.terms().order
    }

    /// Whether a section is an outward run and its return.
    pub fn goes_both_ways(self) -> bool {
        self.terms().both_ways.is_some()
    }

    /// Whether a line may come back to its start number; a spur may not.
    pub fn may_be_loop(self) -> bool {
        self.terms().known_end.is_some()
    }
}

/// Instrument 3 for DS3, 1 for DS1 and DS05.
pub fn instrument_allowed(instrument: i64) -> bool {
    instrument == 3 || instrument == 1
}

/// Benchmark numbers are 1 to 9,999.
pub fn number_allowed(number: i64) -> bool {
    (1..=9_999).contains(&number)
}

/// Heights are -999,999 to 8,999,999 mm.
pub fn height_allowed(height: i64) -> bool {
    (-999_999..=8_999_999).contains(&height)
}

/// Heights are printed in whole mm or in tenths (document 02, W-214).
pub fn prints_allowed(prints: i64) -> bool {
    prints == 1 || prints == 10
}

/// A square of D or W is so many times as large as in the units that the limits are for:
/// 100 times with measured constants (document 02, W-203).
fn square_of_parts(staffs: Staffs) -> i128 {
    staffs.parts() * staffs.parts()
}

/// Whether out and back agree; without a return nothing can disagree.
pub fn double_run_agrees(class: Class, staffs: Staffs, d: i128, r: i128) -> bool {
    let counted = r.max(SHORTEST_FOR_D);
    let square = square_of_parts(staffs);
    class.terms().both_ways.is_none_or(|set| within(set.agree.0, d, square * set.agree.1, counted))
}

/// Whether W is within its limit; a spur has none.
pub fn closure_allowed(class: Class, staffs: Staffs, w: i128, l: i128) -> bool {
    let square = square_of_parts(staffs);
    class.terms().known_end.is_none_or(|set| within(set.closure.0, w, square * set.closure.1, l))
}

/// The longest line in half dm, 20,000 of them to the km; a spur has no longest.
pub fn longest_line(class: Class, is_loop: bool) -> Option<i128> {
    let set = class.terms().known_end?;
    Some(20_000 * if is_loop { set.whole_loop } else { set.line })
}

/// t of a section out and back: 500,000 D^2 / R, rounded, in hundredths of mm^2
/// per km, which it keeps with measured constants: there the divisor is 100 R.
pub fn square_per_km(staffs: Staffs, d: i128, r: i128) -> i128 {
    round_even(500_000 * d * d, square_of_parts(staffs) * r)
}

/// 0 for n < 20, 1 for a T within its limit for n sections, 2 above; sections of one run
/// always 0.
pub fn verdict(class: Class, n: i128, t: i128) -> i128 {
    match class.terms().both_ways {
        Some(set) if n >= 20 && t > set.accidental * n => 2,
        Some(_) if n >= 20 => 1,
        _ => 0,
    }
}
