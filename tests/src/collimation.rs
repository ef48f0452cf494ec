//! The test of the i angle before the first station (document 02, W-204; source document 000,
//! B13, method I1-A-B-I2). Its six values are A1, B1, A2, B2, the sums of four readings of staffs
//! A and B from the places I1 and I2, and the distances D1 and D2 of the near and the far staff,
//! all in mm.

use crate::plain::{refuse_if, Outcome, Reading};

/// The least and the largest of each value.
pub const RANGES: [(i64, i64); 6] =
    [(0, 12_000), (0, 12_000), (0, 12_000), (0, 12_000), (5_000, 7_000), (40_000, 50_000)];

pub fn in_range(values: &[i64; 6]) -> bool {
    values.iter().zip(RANGES).all(|(value, (least, largest))| (least..=largest).contains(value))
}

/// U = (A2 - B2) - (A1 - B1), in mm.
pub fn u(values: &[i64; 6]) -> i128 {
    let [a1, b1, a2, b2, _, _] = values.map(i128::from);
    (a2 - b2) - (a1 - b1)
}

/// Whether the i angle is within 20 seconds.
pub fn angle_allowed(values: &[i64; 6]) -> bool {
    let [.., d1, d2] = values.map(i128::from);
    let angle = 2_062_650_000_000 * u(values) - 1_288 * (d2 * d2 - d1 * d1);
    angle.abs() <= 1_600_000_000 * (d2 - d1)
}

impl Reading {
    pub(crate) fn collimation(&mut self, values: &[i64; 6]) -> Outcome {
        refuse_if(!in_range(values), 44)?;
        self.open_line()?;
        refuse_if(self.collimated || !angle_allowed(values), 45)?;
        self.collimated = true;
        Ok(())
    }
}
