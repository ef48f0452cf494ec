//! A list of calls and what it leaves, as types over the numbers of [`crate::run`].

use crate::{run, CALL_NUMBERS, FIGURES};

/// A staff: its constant and the four readings, in mm.
#[derive(Clone, Copy, Debug, PartialEq, Eq)]
pub struct Staff {
    pub constant: i64,
    pub upper: i64,
    pub lower: i64,
    pub black: i64,
    pub red: i64,
}

/// In what heights are printed. The number is how many of it a millimetre has. Corrections and the closure W follow: they are in a quarter of it.
#[derive(Clone, Copy, Debug, PartialEq, Eq)]
#[repr(i64)]
pub enum PrintUnit {
    /// Whole millimetres.
    Millimetre = 1,
    /// Tenths of a millimetre, the usual print.
    Tenth = 10,
}

/// A call of the book. Any number may be given: what the rules do not allow is refused.
#[derive(Clone, Copy, Debug, PartialEq, Eq)]
pub enum Call {
    /// Opens the line: order 3 or 4, instrument 3 (DS3) or 1 (DS1, DS05), the start benchmark and its height in mm, and the unit of the heights that the
    /// closing gives.
    Open { order: i64, instrument: i64, start: i64, height: i64, prints: PrintUnit },
    Station { back: Staff, fore: Staff },
    /// Ends the run on a benchmark.
    EndRun { number: i64 },
    DropRun,
    DropSection,
    /// Closes the line on its last benchmark, whose known height is in mm.
    CloseLine { number: i64, height: i64 },
    /// Opens a spur, which is levelled out and back: as `Open`, but order 4 alone.
    OpenSpur { order: i64, instrument: i64, start: i64, height: i64, prints: PrintUnit },
    /// Closes the spur on its last benchmark.
    CloseSpur { number: i64 },
    /// Tests the level before the first station (source document 000, B13, method I1-A-B-I2), all in mm: the sums A1, B1, A2, B2 of four readings each
    /// of staffs A and B from I1 and I2; the distances D1 and D2 of the near and the far staff.
    Collimation { readings: [i64; 4], distances: [i64; 2] },
    /// The measured constants of the staffs in place of 4,687 and 4,787 mm, in tenths of a mm; directly after `Open` or `OpenSpur`, as far as calls that
    /// are taken go. Stations name their staffs by 4,687 and 4,787 all the same. Closure, corrections and twice-heights are then in units one tenth as
    /// large.
    Constants { staff_4687: i64, staff_4787: i64 },
    /// Takes the last finished section out of the open line, so that it can be levelled anew; a loop that it shut is open again. Not with stations in the
    /// present run or a waiting run.
    LiftSection,
}

impl Call {
    /// The numbers of the call: its kind, its arguments, and zeros.
    pub fn numbers(&self) -> [i64; CALL_NUMBERS] {
        match *self {
            Call::Open { order, instrument, start, height, prints } => [1, order, instrument, start, height, prints as i64, 0, 0, 0, 0, 0],
            Call::Station { back: b, fore: f } => {
                [2, b.constant, b.upper, b.lower, b.black, b.red, f.constant, f.upper, f.lower, f.black, f.red]
            }
            Call::EndRun { number } => [3, number, 0, 0, 0, 0, 0, 0, 0, 0, 0],
            Call::DropRun => [4, 0, 0, 0, 0, 0, 0, 0, 0, 0, 0],
            Call::DropSection => [5, 0, 0, 0, 0, 0, 0, 0, 0, 0, 0],
            Call::CloseLine { number, height } => [6, number, height, 0, 0, 0, 0, 0, 0, 0, 0],
            Call::OpenSpur { order, instrument, start, height, prints } => [7, order, instrument, start, height, prints as i64, 0, 0, 0, 0, 0],
            Call::CloseSpur { number } => [8, number, 0, 0, 0, 0, 0, 0, 0, 0, 0],
            Call::Collimation { readings: [a1, b1, a2, b2], distances: [d1, d2] } => [9, a1, b1, a2, b2, d1, d2, 0, 0, 0, 0],
            Call::Constants { staff_4687, staff_4787 } => [10, staff_4687, staff_4787, 0, 0, 0, 0, 0, 0, 0, 0],
            Call::LiftSection => [11, 0, 0, 0, 0, 0, 0, 0, 0, 0, 0],
        }
    }
}

/// A benchmark of a closed line.
#[derive(Clone, Copy, Debug, PartialEq, Eq)]
pub struct Point {
    pub number: i64,
    /// From the start, in half dm.
    pub distance: i64,
    /// Of the section that ends here, in quarter mm; with measured constants in a tenth of that, and in tenths in a tenth of either.
    pub correction: i64,
    /// In the print unit that was opened.
    pub height: i64,
}

/// The figures of a closed line.
#[derive(Clone, Debug, PartialEq, Eq)]
pub struct Closing {
    /// W, in the unit of the corrections; 0 on a spur, which has no known end height.
    pub closure: i64,
    /// L, in half dm.
    pub length: i64,
    pub sections: i64,
    /// T; 0 on a fourth-order line. Here it is whole where CLO prints 99,999,999 for a larger one.
    pub accidental: i64,
    /// 1 for a T of at most 3,600 a section (spur: 10,000), 2 for one above it, 0 where it is not judged: fewer than 20 sections, or a fourth-order line.
    pub verdict: i64,
    /// The start, and the end of each section.
    pub points: Vec<Point>,
}

/// The present run.
#[derive(Clone, Copy, Debug, PartialEq, Eq)]
pub struct Run {
    pub stations: i64,
    /// The sum of the stations' height differences, in half mm; with measured constants in a tenth of that.
    pub twice_height: i64,
    /// The sum of the sights, in dm.
    pub sights: i64,
    /// The sum of back sights minus fore sights, in dm.
    pub difference: i64,
}

/// What a list of calls answers and leaves.
#[derive(Clone, Debug, PartialEq, Eq)]
pub struct Outcome {
    /// Each call's refusal number, 0 where it was taken.
    pub numbers: Vec<u8>,
    /// The number of finished sections.
    pub sections: i64,
    pub run: Run,
    /// The figures of the line, if it is closed.
    pub closing: Option<Closing>,
}

/// A list of calls on a fresh book.
///
/// ```
/// use levelbook::{meaning, run_calls, Call, PrintUnit, Staff};
///
/// let staff = |constant, [upper, lower, black, red]: [i64; 4]| Staff { constant, upper, lower, black, red };
/// let first = Call::Station { back: staff(4787, [1571, 1197, 1384, 6171]), fore: staff(4687, [739, 363, 551, 5239]) };
/// let second = Call::Station { back: staff(4687, [1965, 1700, 1832, 6519]), fore: staff(4787, [2141, 1874, 2007, 6793]) };
/// let open = |prints| Call::Open { order: 4, instrument: 3, start: 1, height: 10_000, prints };
/// let mut calls = [
///     open(PrintUnit::Tenth),
///     first,
///     Call::Collimation { readings: [5937, 5951, 6043, 6067], distances: [6800, 40_300] },
///     first,
///     first,
///     second,
///     Call::EndRun { number: 2 },
///     Call::CloseLine { number: 2, height: 10_657 },
/// ];
/// let outcome = run_calls(&calls);
/// assert_eq!(outcome.numbers, [0, 46, 0, 0, 23, 0, 0, 0]);
/// assert!(meaning(46).unwrap().starts_with("station before"));
/// assert!(meaning(23).unwrap().starts_with("staff out of turn"));
/// let closing = outcome.closing.unwrap();
/// assert_eq!((closing.closure, closing.length, closing.points[1].height), (40, 2_564, 106_570));
/// calls[0] = open(PrintUnit::Millimetre);
/// let closing = run_calls(&calls).closing.unwrap();
/// assert_eq!((closing.closure, closing.length, closing.points[1].height), (4, 2_564, 10_657));
/// ```
///
/// The same stations on a spur, which is levelled back as well and has no known end height:
///
/// ```
/// # use levelbook::{run_calls, Call, PrintUnit, Staff};
/// # let staff = |constant, [upper, lower, black, red]: [i64; 4]| Staff { constant, upper, lower, black, red };
/// # let first = Call::Station { back: staff(4787, [1571, 1197, 1384, 6171]), fore: staff(4687, [739, 363, 551, 5239]) };
/// # let second = Call::Station { back: staff(4687, [1965, 1700, 1832, 6519]), fore: staff(4787, [2141, 1874, 2007, 6793]) };
/// let outcome = run_calls(&[
///     Call::OpenSpur { order: 4, instrument: 3, start: 1, height: 10_000, prints: PrintUnit::Tenth },
///     Call::Collimation { readings: [5937, 5951, 6043, 6067], distances: [6800, 40_300] },
///     first,
///     second,
///     Call::EndRun { number: 2 },
///     Call::Station { back: staff(4687, [2141, 1874, 2007, 6693]), fore: staff(4787, [1965, 1700, 1832, 6619]) },
///     Call::Station { back: staff(4787, [739, 363, 551, 5338]), fore: staff(4687, [1571, 1197, 1384, 6071]) },
///     Call::EndRun { number: 1 },
///     Call::CloseLine { number: 2, height: 10_657 },
///     Call::CloseSpur { number: 2 },
/// ]);
/// assert_eq!(outcome.numbers, [0, 0, 0, 0, 0, 0, 0, 0, 41, 0]);
/// let closing = outcome.closing.unwrap();
/// assert_eq!((closing.closure, closing.length, closing.accidental), (0, 2_564, 195));
/// assert_eq!((closing.points[1].correction, closing.points[1].height), (-2, 106_582));
/// ```
///
/// The first ones again with measured constants: the first station's height has a tenth of half a millimetre in its last place, and in the run, whose two
/// stations have the staffs in turn, the constants cancel:
///
/// ```
/// # use levelbook::{run_calls, Call, PrintUnit, Staff};
/// # let staff = |constant, [upper, lower, black, red]: [i64; 4]| Staff { constant, upper, lower, black, red };
/// # let first = Call::Station { back: staff(4787, [1571, 1197, 1384, 6171]), fore: staff(4687, [739, 363, 551, 5239]) };
/// # let second = Call::Station { back: staff(4687, [1965, 1700, 1832, 6519]), fore: staff(4787, [2141, 1874, 2007, 6793]) };
/// let constants = Call::Constants { staff_4687: 46_873, staff_4787: 47_866 };
/// let mut calls = vec![
///     Call::Open { order: 4, instrument: 3, start: 1, height: 10_000, prints: PrintUnit::Tenth },
///     constants,
///     Call::Collimation { readings: [5937, 5951, 6043, 6067], distances: [6800, 40_300] },
///     first,
///     constants,
/// ];
/// let outcome = run_calls(&calls);
/// assert_eq!((&outcome.numbers[..], outcome.run.twice_height), (&[0, 0, 0, 0, 43][..], 16_657));
/// calls.extend([second, Call::EndRun { number: 2 }, Call::CloseLine { number: 2, height: 10_657 }]);
/// let closing = run_calls(&calls).closing.unwrap();
/// assert_eq!((closing.closure, closing.points[1].correction, closing.points[1].height), (400, -400, 106_570));
/// ```
///
/// A section whose mark was destroyed is lifted and levelled anew, here on the same number; nothing of the lifted one is left:
///
/// ```
/// # use levelbook::{run_calls, Call, PrintUnit, Staff};
/// # let staff = |constant, [upper, lower, black, red]: [i64; 4]| Staff { constant, upper, lower, black, red };
/// # let first = Call::Station { back: staff(4787, [1571, 1197, 1384, 6171]), fore: staff(4687, [739, 363, 551, 5239]) };
/// # let second = Call::Station { back: staff(4687, [1965, 1700, 1832, 6519]), fore: staff(4787, [2141, 1874, 2007, 6793]) };
/// let open = Call::Open { order: 4, instrument: 3, start: 1, height: 10_000, prints: PrintUnit::Tenth };
/// let opened = [open, Call::Collimation { readings: [5937, 5951, 6043, 6067], distances: [6800, 40_300] }];
/// let section = [first, second, Call::EndRun { number: 2 }];
/// let outcome = run_calls(&[&opened[..], &section, &[Call::LiftSection, Call::LiftSection], &section, &[Call::CloseLine { number: 2, height: 10_657 }]].concat());
/// assert_eq!(outcome.numbers, [0, 0, 0, 0, 0, 0, 53, 0, 0, 0, 0]);
/// assert_eq!((outcome.sections, outcome.closing.unwrap().length), (1, 2_564));
/// ```
pub fn run_calls(calls: &[Call]) -> Outcome {
    let list: Vec<i64> = calls.iter().flat_map(Call::numbers).collect();
    let (mut numbers, mut figures) = (vec![0; calls.len()], [0; FIGURES]);
    let entries = run(&list, &mut numbers, &mut figures);
    debug_assert_eq!(entries, calls.len());
    let [closure, length, sections, accidental, verdict, stations, twice_height, sights, difference, finished] = first_ten(&figures);
    let points = figures[10..].chunks_exact(4).take(sections as usize + 1).map(point).collect();
    Outcome {
        numbers,
        sections: finished,
        run: Run { stations, twice_height, sights, difference },
        // a closed line has a section
        closing: (sections > 0).then_some(Closing { closure, length, sections, accidental, verdict, points }),
    }
}

fn first_ten(figures: &[i64; FIGURES]) -> [i64; 10] {
    figures[..10].try_into().expect("ten of them")
}

fn point(figures: &[i64]) -> Point {
    Point { number: figures[0], distance: figures[1], correction: figures[2], height: figures[3] }
}
