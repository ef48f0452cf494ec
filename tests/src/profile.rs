//! The points for the profile plotter (document 02, W-213): pairs of binary64 values, distance and raw height, sixteen bytes each, lowest byte first.

use crate::plain::{Reading, Stage};
use crate::report;

/// The bytes of a pair.
pub const PAIR: usize = 16;

impl Reading {
    /// Of a closed line the start and each section: the distance in half dm, and the start height plus the running Q, in the unit of Q. 56 where the line is not
    /// closed.
    pub fn profile(&self) -> Result<Vec<[i64; 2]>, u8> {
        let opened = self.opened.filter(|_| self.stage == Stage::Closed).ok_or(56)?;
        let mut point = [0, self.staffs.units() as i64 * opened.height];
        let mut points = vec![point];
        for (q, r) in self.sums_of_sections() {
            point = [point[0] + r, point[1] + q];
            points.push(point);
        }
        Ok(points)
    }
}

/// The largest whole number up to which each is a binary64 by itself.
pub const LARGEST_WHOLE: i64 = 1 << 53;

/// A pair as it is written.
pub fn bytes_of(point: [i64; 2]) -> Vec<u8> {
    assert!(point.iter().all(|one| one.abs() <= LARGEST_WHOLE), "{point:?}");
    point.iter().flat_map(|&one| (one as f64).to_le_bytes()).collect()
}

/// The pairs of a text book's line: 9 for a text that is too long, then 56.
pub fn profile(text: &[u8]) -> Result<Vec<u8>, u8> {
    Ok(report::read(text)?.reading.profile()?.into_iter().flat_map(bytes_of).collect())
}

/// The call over a lent buffer, which is untouched where it is refused; 56 is also the number for one that is shorter than all pairs.
pub fn profile_into(text: &[u8], buffer: &mut [u8]) -> Result<usize, u8> {
    let pairs = profile(text)?;
    buffer.get_mut(..pairs.len()).ok_or(56)?.copy_from_slice(&pairs);
    Ok(pairs.len())
}

/// What the program prints: the pairs, or one line with the refusal.
pub fn printed(text: &[u8]) -> Vec<u8> {
    profile(text).unwrap_or_else(report::refused)
}
