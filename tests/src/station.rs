//! The figures of one station (document 01, "The station"), and their sums over
//! a list of stations. Where the constants are measured ones, in tenths of a mm, the
//! figures that they enter into are in units one tenth as large (document 02, W-203).

use crate::constants::Staffs;

pub const BACK: usize = 0;
pub const FORE: usize = 1;

/// Places of the four readings of a staff, in mm.
pub const UPPER: usize = 0;
pub const LOWER: usize = 1;
pub const BLACK: usize = 2;
pub const RED: usize = 3;

/// Two staffs of four readings, back first, and the nominal constants that name the staffs.
#[derive(Clone, Debug, PartialEq, Eq)]
pub struct Station {
    pub back_k: i64,
    pub fore_k: i64,
    pub readings: [[i64; 4]; 2],
}

impl Station {
    fn reading(&self, staff: usize, place: usize) -> i128 {
        i128::from(self.readings[staff][place])
    }

    fn constant(&self, staff: usize, staffs: Staffs) -> i128 {
        staffs.constant([self.back_k, self.fore_k][staff])
    }

    /// Sight length in dm: u - l.
    pub fn sight(&self, staff: usize) -> i128 {
        self.reading(staff, UPPER) - self.reading(staff, LOWER)
    }

    /// d in dm: back sight - fore sight.
    pub fn d(&self) -> i128 {
        self.sight(BACK) - self.sight(FORE)
    }

    /// Face difference in mm or tenths: e = K + m - r.
    pub fn e(&self, staff: usize, staffs: Staffs) -> i128 {
        let readings = self.reading(staff, BLACK) - self.reading(staff, RED);
        self.constant(staff, staffs) + staffs.parts() * readings
    }

    /// Height difference of the faces in mm or tenths: back e - fore e.
    pub fn faces(&self, staffs: Staffs) -> i128 {
        self.e(BACK, staffs) - self.e(FORE, staffs)
    }

    /// Twice the station height, in half mm or a tenth of that.
    pub fn twice_height(&self, staffs: Staffs) -> i128 {
        let readings = (self.reading(BACK, BLACK) - self.reading(FORE, BLACK))
            + (self.reading(BACK, RED) - self.reading(FORE, RED));
        staffs.parts() * readings - (self.constant(BACK, staffs) - self.constant(FORE, staffs))
    }

    /// Threads and blacks are 0 to 3,000, reds 0 to 7,999.
    pub fn readings_in_range(&self) -> bool {
        self.readings.iter().all(|staff| {
            (0..=3_000).contains(&staff[UPPER])
                && (0..=3_000).contains(&staff[LOWER])
                && (0..=3_000).contains(&staff[BLACK])
                && (0..=7_999).contains(&staff[RED])
        })
    }

    /// One constant is 4,687 and the other 4,787.
    pub fn constants_fit(&self) -> bool {
        (self.back_k, self.fore_k) == (4_687, 4_787) || (self.back_k, self.fore_k) == (4_787, 4_687)
    }

    /// On both staffs l < m < u.
    pub fn threads_ordered(&self) -> bool {
        self.readings.iter().all(|staff| staff[LOWER] < staff[BLACK] && staff[BLACK] < staff[UPPER])
    }
}

/// G: the sum of twice-heights of a run, in half mm or a tenth of that.
pub fn sum_of_heights(run: &[Station], staffs: Staffs) -> i128 {
    run.iter().map(|one| one.twice_height(staffs)).sum()
}

/// s: the sum of all sights of a run, in dm.
pub fn sum_of_sights(run: &[Station]) -> i128 {
    run.iter().map(|one| one.sight(BACK) + one.sight(FORE)).sum()
}

/// The accumulated d of a run, in dm.
pub fn accumulated_d(run: &[Station]) -> i128 {
    run.iter().map(Station::d).sum()
}
