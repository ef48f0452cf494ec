//! The constants of the two staffs: the nominal ones, or the measured ones that a line has from the record KON (document 02, W-203).

use crate::plain::{refuse_if, Outcome, Reading, Stage};

/// The nominal constants in mm. Stations name their staffs by them, whatever was measured.
pub const NOMINAL: [i64; 2] = [4_687, 4_787];

/// The least and the largest measured constant of the staff 4,687, then of the staff 4,787, in tenths of a mm.
pub const RANGES: [(i64, i64); 2] = [(46_770, 46_970), (47_770, 47_970)];

pub fn in_range(values: &[i64; 2]) -> bool {
    values.iter().zip(RANGES).all(|(value, (least, largest))| (least..=largest).contains(value))
}

/// What a line works with. Measured constants are in tenths of a mm, and all that they enter into is in units one tenth as large as with nominal ones.
#[derive(Clone, Copy, Debug, PartialEq, Eq)]
pub enum Staffs {
    Nominal,
    Measured([i64; 2]),
}

impl Staffs {
    /// The parts of a mm that e is in: 1 or 10. A half or a quarter mm has as many parts.
    pub fn parts(self) -> i128 {
        match self {
            Staffs::Nominal => 1,
            Staffs::Measured(_) => 10,
        }
    }

    /// The units of Q and W in a mm: 4 or 40.
    pub fn units(self) -> i128 {
        4 * self.parts()
    }

    /// The constant of the staff that a station names so, in these parts of a mm.
    pub fn constant(self, name: i64) -> i128 {
        match self {
            Staffs::Nominal => i128::from(name),
            Staffs::Measured([shorter, longer]) => i128::from(if name == NOMINAL[0] { shorter } else { longer }),
        }
    }
}

impl Reading {
    /// The place of KON is directly after LIN or SPR, as far as calls that are taken go; anywhere else it is 43, which stands in the stead of 21.
    pub(crate) fn measured(&mut self, values: &[i64; 2]) -> Outcome {
        refuse_if(!in_range(values), 42)?;
        refuse_if(self.stage != Stage::Open || self.begun, 43)?;
        self.staffs = Staffs::Measured(*values);
        Ok(())
    }
}
