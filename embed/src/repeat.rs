//! A run that is shot again.

use crate::raw;
use crate::Refusal;

/// What stands of a run that was shot again, or is due.
#[derive(Clone, Copy, Debug, PartialEq, Eq)]
pub enum Judgement {
    /// The new run stands.
    NewRun,
    /// The mean of the old and the new run stands.
    Mean,
    /// The opposite run is due: it is shot again, too.
    OppositeRun,
}

/// The opposite run of the section, in its own direction.
#[derive(Clone, Copy, Debug, PartialEq, Eq)]
pub struct OppositeRun {
    /// G, the sum of its stations' height differences, in half mm.
    pub twice_height: i64,
    /// s, the sum of its sights, in dm.
    pub sights: i64,
}

/// Judges a run that was shot again in the same direction (source document 003, 6.11.2 a to c). Both runs are texts of STA lines as a text book has them,
/// without a heading; order 3 is third order, 4 a spur, instrument 3 DS3, 1 DS1 or DS05. The limit is that of a section with the old and the opposite run.
///
/// ```
/// use levelbook::{judge, standing_lines, Judgement, OppositeRun, Refusal};
///
/// let text = |rows: [&str; 2]| rows.iter().map(|row| format!("{row:<83}\n")).collect::<String>();
/// let old = text([
///     "STA    4787    1512     606    1059    5846    4687    1752     842    1297    5984",
///     "STA    4687    1588     688    1138    5825    4787    1830     930    1380    6167",
/// ]);
/// let new = text([
///     "STA    4787    1508     602    1055    5842    4687    1758     848    1303    5990",
///     "STA    4687    1585     685    1135    5822    4787    1828     928    1378    6166",
/// ]);
/// // G is -960 of the old run and -983 of the new one: 11 mm and half a mm from the opposite one
/// let (old, new, opposite) = (old.as_bytes(), new.as_bytes(), OppositeRun { twice_height: 982, sights: 3_612 });
/// assert_eq!(judge(old, new, 3, 1, opposite), Ok(Judgement::NewRun));
/// assert_eq!(standing_lines(old, new, 3, 1, opposite), Ok(new));
/// assert_eq!(judge(old, &new[..84], 3, 1, opposite), Err(Refusal::RepeatedRun));
/// ```
///
/// # Errors
///
/// [`Refusal::OrderOrInstrument`] for another order or instrument; else [`Refusal::RepeatedRun`] where a line is not a station that is taken, a run has no
/// station or an odd number of them, or the opposite run's G is outside ±1,250,000 or its s outside 8 to 600,000.
pub fn judge(old: &[u8], new: &[u8], order: i64, instrument: i64, opposite: OppositeRun) -> Result<Judgement, Refusal> {
    let mut judgement = 0;
    let OppositeRun { twice_height: g, sights: s } = opposite;
    // SAFETY: slices of every length are taken, each as a pointer and a length, and read within their lengths; one number is written.
    let number = unsafe { raw::level_judge(old.as_ptr(), old.len(), new.as_ptr(), new.len(), order, instrument, g, s, &mut judgement) };
    Refusal::check(number).map(|()| match judgement {
        1 => Judgement::NewRun,
        2 => Judgement::Mean,
        _ => Judgement::OppositeRun,
    })
}

/// The lines of the run that stands, uncopied: the whole text of the new run, the whole text of the old one for the mean, or its empty beginning where the
/// opposite run is due.
///
/// # Errors
///
/// As [`judge`].
pub fn standing_lines<'a>(old: &'a [u8], new: &'a [u8], order: i64, instrument: i64, opposite: OppositeRun) -> Result<&'a [u8], Refusal> {
    judge(old, new, order, instrument, opposite).map(|judgement| match judgement {
        Judgement::NewRun => new,
        Judgement::Mean => old,
        Judgement::OppositeRun => &old[..0],
    })
}
