//! How a book's line or spur is opened, its level tested, and how it is closed: what tests and benchmarks begin their books with is made here.

use crate::plain::{Call, Opened};
use crate::rules::Class;

/// With a DS3, from benchmark 1 at 10.000 m, printed in whole mm.
pub fn usual(order: i64) -> Opened {
    Opened { order, instrument: 3, start: 1, height: 10_000, prints: 1 }
}

/// A1, B1, A2, B2, D1, D2 of source document 000, Table B7.
pub const TABLE_B7: [i64; 6] = [5_937, 5_951, 6_043, 6_067, 6_800, 40_300];

/// Constants in their ranges, of the staff 4,687 and of the staff 4,787, in tenths of a mm.
pub const MEASURED: [i64; 2] = [46_873, 47_866];

/// The call that opens; the order is the class's, whatever the values have.
pub fn opening_call(class: Class, opened: Opened) -> Call {
    let opened = Opened { order: class.order(), ..opened };
    match class {
        Class::Third | Class::Fourth => Call::Open(opened),
        Class::Spur => Call::OpenSpur(opened),
    }
}

/// The calls after which a line has nothing in its lists and takes stations.
pub fn opening_of(class: Class, opened: Opened) -> Vec<Call> {
    vec![opening_call(class, opened), Call::Collimation(TABLE_B7)]
}

pub fn opening(class: Class) -> Vec<Call> {
    opening_of(class, usual(class.order()))
}

/// The same with measured constants.
pub fn measured_opening(class: Class, constants: [i64; 2]) -> Vec<Call> {
    vec![opening_call(class, usual(class.order())), Call::Constants(constants), Call::Collimation(TABLE_B7)]
}

/// The call that closes; a spur has no end height.
pub fn closing_call(class: Class, number: i64, height: i64) -> Call {
    match class {
        Class::Third | Class::Fourth => Call::CloseLine { number, height },
        Class::Spur => Call::CloseSpur(number),
    }
}
