//! Warnings of drift.

use crate::raw;
use crate::Refusal;

/// The most warnings that there are.
pub const MOST_WARNINGS: usize = 62;

/// The warnings of drift of a text book's line, open or closed, which is levelled out and back: the numbers, from 1 in line order, of the sections at which
/// a window of so many sections begins (3 to 10) in which all D have one sign and exceed a fifth of their limit.
///
/// ```
/// use levelbook::{drift, Refusal};
///
/// let staff = ["    4787    1800    1200    1500    6287", "    4687    1800    1200    1500    6187"];
/// let station = |back: &str, fore: &str| format!("STA{back}{fore}");
/// let mut rows = ["LEVEL BOOK", "LIN       3       3       1   10000", "ANG    5937    5951    6043    6067    6800   40300"].map(String::from).to_vec();
/// // four sections of 240 m, out and back 1.5 mm apart
/// for number in 1..5 {
///     rows.extend([station("    4787    1800    1200    1501    6289", staff[1]), station(staff[1], staff[0]), format!("RUN{:8}", number + 1)]);
///     rows.extend([station(staff[1], staff[0]), station(staff[0], staff[1]), format!("RUN{number:8}")]);
/// }
/// let text: String = rows.iter().map(|row| format!("{row:<83}\n")).collect();
/// assert_eq!(drift(text.as_bytes(), 3)?, [1, 2]);
/// assert_eq!(drift(text.as_bytes(), 5)?, []);
/// assert_eq!(drift(text.as_bytes(), 2), Err(Refusal::DriftWindow));
/// # Ok::<(), Refusal>(())
/// ```
///
/// # Errors
///
/// [`Refusal::TextTooLong`] for a text above [`crate::LONGEST_TEXT`], else [`Refusal::DriftWindow`] for a window outside 3 to 10 or a fourth-order line
/// that is not a spur.
pub fn drift(text: &[u8], window: i64) -> Result<Vec<usize>, Refusal> {
    let mut firsts = [0; MOST_WARNINGS];
    let count = drift_into(text, window, &mut firsts)?;
    Ok(firsts[..count].to_vec())
}

/// The same into the first places of a list, as far as it has places; gives how many warnings there are. Further places keep their values.
///
/// # Errors
///
/// As [`drift`]. The list is untouched then.
pub fn drift_into(text: &[u8], window: i64, firsts: &mut [usize]) -> Result<usize, Refusal> {
    let mut count = 0;
    // SAFETY: slices of every length are taken, each as a pointer and a length; the one is read and the other written within its length.
    let number = unsafe { raw::level_drift(text.as_ptr(), text.len(), window, firsts.as_mut_ptr(), firsts.len(), &mut count) };
    Refusal::check(number).map(|()| count)
}
