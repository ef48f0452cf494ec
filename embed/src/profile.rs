//! The points of a closed line for a plotting program.

use crate::raw::{self, Pair};
use crate::Refusal;

/// The bytes that the pairs of every line fit: of the start and of 64 sections, 16 each.
pub const PROFILE_ROOM: usize = 1_040;

/// The points of a text book's line, which is closed: the start, and the end of each section. The distance is in half dm from the start; the raw height is
/// what was levelled, not adjusted, in quarter mm, with measured constants in fortieths, whatever the print unit.
///
/// ```
/// use levelbook::{difference, profile, Pair, Refusal};
///
/// let rows = [
///     "LEVEL BOOK",
///     "LIN       4       3       1   10000",
///     "ANG    5937    5951    6043    6067    6800   40300",
///     "STA    4787    1571    1197    1384    6171    4687     739     363     551    5239",
///     "STA    4687    1965    1700    1832    6519    4787    2141    1874    2007    6793",
///     "RUN       2",
///     "END       2   10657",
/// ];
/// let text = |rows: &[&str]| rows.iter().map(|row| format!("{row:<83}\n")).collect::<String>();
/// let points = profile(text(&rows).as_bytes())?;
/// assert_eq!(points, [Pair { distance: 0.0, height: 40_000.0 }, Pair { distance: 2_564.0, height: 42_632.0 }]);
/// // R and Q of the section, exactly
/// assert_eq!(difference(points[0], points[1]), Pair { distance: 2_564.0, height: 2_632.0 });
/// assert_eq!(profile(text(&rows[..6]).as_bytes()), Err(Refusal::Profile));
/// # Ok::<(), Refusal>(())
/// ```
///
/// # Errors
///
/// [`Refusal::TextTooLong`] for a text above [`crate::LONGEST_TEXT`], else [`Refusal::Profile`] for a line that is not closed.
pub fn profile(text: &[u8]) -> Result<Vec<Pair>, Refusal> {
    let mut bytes = [0; PROFILE_ROOM];
    let length = profile_into(text, &mut bytes)?;
    let values: Vec<f64> = bytes[..length].chunks_exact(8).map(|one| f64::from_le_bytes(one.try_into().expect("eight bytes"))).collect();
    Ok(values.chunks_exact(2).map(|one| Pair { distance: one[0], height: one[1] }).collect())
}

/// The same points as 16 bytes each, distance first, lowest byte first, into the beginning of a buffer; gives how many bytes. The bytes beyond them keep
/// their values.
///
/// # Errors
///
/// As [`profile`], and [`Refusal::Profile`] for a buffer that is shorter, too; [`PROFILE_ROOM`] is always enough. The buffer is untouched then.
pub fn profile_into(text: &[u8], pairs: &mut [u8]) -> Result<usize, Refusal> {
    let mut written = 0;
    // SAFETY: slices of every length are taken, each as a pointer and a length; the one is read and the other written within its length.
    let number = unsafe { raw::level_profile(text.as_ptr(), text.len(), pairs.as_mut_ptr(), pairs.len(), &mut written) };
    Refusal::check(number).map(|()| written)
}

/// What is between two points of a profile: of neighbours exactly the R and Q of the section.
pub fn difference(from: Pair, to: Pair) -> Pair {
    // SAFETY: every two pairs are taken, and no memory is touched.
    unsafe { raw::level_difference(from, to) }
}
