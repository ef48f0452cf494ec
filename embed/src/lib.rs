//! A levelling book of third and fourth order (GB 12898-91) for programs that embed it: staff readings go in as a text, the adjusted heights of the
//! benchmarks come out as a report.
//!
//! The functions are those of the static libraries that `tools/build` builds from `crates/`, where each is proved to meet its contract. They take
//! every input, allocate nothing and keep nothing between calls, so threads may call them at the same time. This package only lends them slices;
//! programs in C use `levelbook.h` beside it. The libraries are those of the folder `LEVELBOOK_LIB_DIR`, or of the repository's `target/staticlib`.
//!
//! ```
//! let rows = [
//!     "LEVEL BOOK",
//!     "LIN       4       3       1   10000",
//!     "ANG    5937    5951    6043    6067    6800   40300",
//!     "STA    4787    1571    1197    1384    6171    4687     739     363     551    5239",
//!     "STA    4687    1965    1700    1832    6519    4787    2141    1874    2007    6793",
//!     "RUN       2",
//!     "END       2   10657",
//! ];
//! let text = |rows: &[&str]| rows.iter().map(|row| format!("{row:<83}\n")).collect::<String>();
//! let report = levelbook::reduce(text(&rows).as_bytes())?;
//! let lines: Vec<&str> = std::str::from_utf8(&report)?.lines().map(str::trim_end).collect();
//! assert_eq!(lines[1], "CLO      40    2564       1       0       0");
//! assert_eq!(lines[3], "PNT       2    2564     -40          106570");
//!
//! // heights in tenths of a millimetre; in whole ones, where LIN has a 1 behind the start height
//! let whole = [&rows[..1], &["LIN       4       3       1   10000       1"], &rows[2..]].concat();
//! let report = levelbook::reduce(text(&whole).as_bytes())?;
//! let lines: Vec<&str> = std::str::from_utf8(&report)?.lines().map(str::trim_end).collect();
//! assert_eq!(lines[1], "CLO       4    2564       1       0       0");
//! assert_eq!(lines[3], "PNT       2    2564      -4   10657");
//! # Ok::<(), Box<dyn std::error::Error>>(())
//! ```

mod calls;
mod drift;
mod profile;
pub mod raw;
mod refusal;
mod repeat;

pub use calls::{run_calls, Call, Closing, Outcome, Point, PrintUnit, Run, Staff};
pub use drift::{drift, drift_into, MOST_WARNINGS};
pub use profile::{difference, profile, profile_into, PROFILE_ROOM};
pub use raw::{Leg, Pair};
pub use refusal::{meaning, Refusal};
pub use repeat::{judge, standing_lines, Judgement, OppositeRun};

/// The longest text in bytes: 777 lines of 83 columns and a line feed.
pub const LONGEST_TEXT: usize = 65_268;

/// The bytes that a report buffer has at least. No report is longer, whatever the text.
pub const REPORT_ROOM: usize = 65_536;

/// How many numbers an entry has in the list of [`run`].
pub const CALL_NUMBERS: usize = 11;

/// How many figures [`run`] has of a book.
pub const FIGURES: usize = 270;

/// The report of a text book.
///
/// What is wrong within the text is said in the report, by a REF line (text line, refusal number) for each line that was refused.
///
/// # Errors
///
/// [`Refusal::TextTooLong`] for a text above [`LONGEST_TEXT`].
pub fn reduce(text: &[u8]) -> Result<Vec<u8>, Refusal> {
    let mut report = vec![0; REPORT_ROOM];
    let length = reduce_into(text, &mut report)?;
    report.truncate(length);
    Ok(report)
}

/// The report of a text book into the beginning of a buffer; gives the report's length. The bytes beyond it keep their values.
///
/// ```
/// let mut buffer = [7; levelbook::REPORT_ROOM];
/// let length = levelbook::reduce_into(b"no heading", &mut buffer)?;
/// let report = [format!("{:<83}\n", "REDUCED LEVELS"), format!("{:<83}\n", "REF       1       1"), format!("{:<83}\n", "OPN       0")];
/// assert_eq!(&buffer[..length], report.concat().as_bytes());
/// assert!(buffer[length..].iter().all(|&byte| byte == 7));
/// # Ok::<(), levelbook::Refusal>(())
/// ```
///
/// # Errors
///
/// [`Refusal::TextTooLong`] for a text above [`LONGEST_TEXT`], else [`Refusal::BufferTooShort`] for a buffer below [`REPORT_ROOM`]. The buffer is untouched then.
pub fn reduce_into(text: &[u8], report: &mut [u8]) -> Result<usize, Refusal> {
    let mut written = 0;
    // SAFETY: slices of every length are taken, each as a pointer and a length; the one is read and the other written within its length.
    let number = unsafe { raw::level_reduce(text.as_ptr(), text.len(), report.as_mut_ptr(), report.len(), &mut written) };
    Refusal::check(number).map(|()| written)
}

/// The adjustment by itself: from the known heights (mm) at both ends of a line and the Q and R of its sections to one height (in the print unit) a
/// section, into the beginning of `heights`, whose further places keep their values. Closure and length limits are not tested.
///
/// ```
/// use levelbook::{adjust, Leg, PrintUnit, Refusal};
///
/// let sections = [Leg { height: 2_632, distance: 2_564 }, Leg { height: 2_200, distance: 1_600 }];
/// let mut heights = [0; 2];
/// adjust(10_000, 11_206, PrintUnit::Tenth, &sections, &mut heights)?;
/// assert_eq!(heights, [106_568, 112_060]);
/// adjust(10_000, 11_206, PrintUnit::Millimetre, &sections, &mut heights)?;
/// assert_eq!(heights, [10_657, 11_206]);
/// assert_eq!(adjust(10_000, 11_206, PrintUnit::Tenth, &sections, &mut heights[..1]), Err(Refusal::ListTooShort));
/// # Ok::<(), Refusal>(())
/// ```
///
/// # Errors
///
/// In this order, and the list is untouched then: [`Refusal::Sections`], [`Refusal::ListTooShort`], [`Refusal::Section`], [`Refusal::Height`].
pub fn adjust(start: i64, end: i64, prints: PrintUnit, sections: &[Leg], heights: &mut [i64]) -> Result<(), Refusal> {
    // SAFETY: slices of every length are taken, each as a pointer and a length; the one is read and the other written within its length.
    Refusal::check(unsafe { raw::level_adjust(sections.as_ptr(), sections.len(), start, end, prints as i64, heights.as_mut_ptr(), heights.len()) })
}

/// A list of entries on a fresh book, [`CALL_NUMBERS`] numbers an entry; gives how many entries there are. [`run_calls`] has the same with types. Each
/// entry's refusal number, 0 where its call is taken, goes into its place of `numbers`, the figures of the book that is left into `figures`, both as far
/// as there are places: where `numbers` is shorter than the answer, the numbers of the last entries are missing.
///
/// An entry's first number is its kind, the others are its call's arguments, and those that the call does not have are not looked at: 1 open (order,
/// instrument, start number, start height, print unit: 1 for whole mm, 10 for tenths), 2 station (K, u, l, m, r back, then fore), 3 end run (number),
/// 4 drop run, 5 drop section, 6 close line (number, height), 7 open spur (as 1, order 4 alone), 8 close spur (number), 9 collimation (A1, B1, A2, B2, D1,
/// D2), 10 constants (of the staff 4,687, then of the staff 4,787, in tenths of a mm; directly after 1 or 7), 11 lift section (the last finished one). An
/// entry of any other kind is refused with 1, and so is a rest of 1 to 10 numbers at the end, which is one entry more; nothing else of them is looked at,
/// and the book stays as it is.
///
/// The figures are W, L, n, T and verdict, each 0 while the line is not closed; of the present run its stations, the sum of twice-heights, of sights
/// and of d; the finished sections; then number, S, correction and height of the start and each section, 0 where there is none: [`FIGURES`] numbers.
/// Heights are in the print unit, W and corrections in quarters of it, the sum of twice-heights in half mm; after a 10 that was taken each but the heights
/// is in units one tenth as large.
///
/// ```
/// use levelbook::FIGURES;
///
/// let open = [1, 4, 3, 1, 10_000, 10, 0, 0, 0, 0, 0];
/// let collimation = [9, 5937, 5951, 6043, 6067, 6800, 40_300, 0, 0, 0, 0];
/// let station = [2, 4787, 1571, 1197, 1384, 6171, 4687, 739, 363, 551, 5239];
/// let (mut numbers, mut figures) = ([99; 4], [0; FIGURES]);
/// let entries = levelbook::run(&[open, collimation, station, station].concat(), &mut numbers, &mut figures);
/// assert_eq!((entries, numbers), (4, [0, 0, 0, 23]));
/// assert_eq!(figures[5..10], [1, 1665, 750, -2, 0]);
/// let unknown_kind_and_rest = [12; levelbook::CALL_NUMBERS + 4];
/// assert_eq!(levelbook::run(&unknown_kind_and_rest, &mut numbers[..1], &mut figures), 2);
/// assert_eq!(numbers, [1, 0, 0, 23]);
/// ```
pub fn run(calls: &[i64], numbers: &mut [u8], figures: &mut [i64]) -> usize {
    // SAFETY: slices of every length are taken, each as a pointer and a length; the first is read and the others written within their lengths.
    unsafe { raw::level_run(calls.as_ptr(), calls.len(), numbers.as_mut_ptr(), numbers.len(), figures.as_mut_ptr(), figures.len()) }
}

/// The whole number nearest to n / d, a tie going to the even one. A d outside 1 to 4 × 10¹⁸ stands for the nearest one inside.
///
/// ```
/// assert_eq!([5, 7, -5, -7].map(|n| levelbook::round_half_even(n, 2)), [2, 4, -2, -4]);
/// ```
pub fn round_half_even(n: i64, d: i64) -> i64 {
    // SAFETY: every pair of numbers is taken, and no memory is touched.
    unsafe { raw::level_round_half_even(n, d) }
}

/// Whether a × x² is at most b × l, exactly.
///
/// ```
/// assert!(levelbook::root_within(25, 28, 8, 2_564));
/// assert!(!levelbook::root_within(25, 32, 8, 2_564));
/// ```
pub fn root_within(a: u16, x: i64, b: u16, l: i64) -> bool {
    // SAFETY: every four numbers are taken, and no memory is touched.
    unsafe { raw::level_root_within(a, x, b, l) }
}
