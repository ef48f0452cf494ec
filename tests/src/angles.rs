//! Tests of the level made to wished angles.

use crate::caller::{Caller, Goal};
use crate::collimation::{angle_allowed, RANGES};
use crate::plain::Call;
use crate::random::Random;

/// Values in their ranges with this U, at most 900 either way, and these distances.
pub fn values_of(random: &mut Random, u: i64, [d1, d2]: [i64; 2]) -> [i64; 6] {
    let [a1, a2] = [0; 2].map(|_: i64| random.between(2_000, 10_000));
    let lower = random.between(-1_000, 1_000);
    [a1, a1 - lower, a2, a2 - lower - u, d1, d2]
}

/// The least and the largest U within 20 seconds for these distances; a U of 0 is.
pub fn limits_of_u(distances: [i64; 2]) -> (i64, i64) {
    let within = |u: i64| angle_allowed(&[0, 0, u, 0, distances[0], distances[1]]);
    let last = |turn: i64| turn * (1..).find(|size| !within(turn * size)).expect("a U beyond") - turn;
    (last(-1), last(1))
}

/// Distances in their ranges, at the ends now and then.
pub fn any_distances(random: &mut Random) -> [i64; 2] {
    [RANGES[4], RANGES[5]].map(|(least, largest)| match random.below(4) {
        0 => least,
        1 => largest,
        _ => random.between(least, largest),
    })
}

impl Caller<'_> {
    /// Tests the level until a test is taken; before that, and after, something may go wrong.
    pub fn collimate(&mut self) {
        while self.mistaken() {
            self.before_the_test();
        }
        let good = self.collimation_within();
        self.put(good);
        if self.mistaken() {
            let again = self.doubtful_collimation();
            self.put(again);
        }
    }

    /// A station, or a test that may not be good.
    fn before_the_test(&mut self) {
        let goal = Goal { stations: 2, sum: 400, twice: 0 };
        match self.random.below(4) {
            0 => {
                self.good_station(&goal);
            }
            1 => self.trouble(&goal),
            _ => {
                let doubtful = self.doubtful_collimation();
                self.put(doubtful);
            }
        }
    }

    /// A test within 20 seconds, with the last U that is now and then.
    fn collimation_within(&mut self) -> Call {
        let distances = any_distances(self.random);
        let (least, largest) = limits_of_u(distances);
        let u = match self.random.below(4) {
            0 => least,
            1 => largest,
            _ => self.random.between(least, largest),
        };
        Call::Collimation(values_of(self.random, u, distances))
    }

    /// A test within, just beyond or far beyond 20 seconds, one in three with a value at an end of
    /// its range or one beyond.
    pub fn doubtful_collimation(&mut self) -> Call {
        let distances = any_distances(self.random);
        let (least, largest) = limits_of_u(distances);
        let u = match self.random.below(6) {
            0 => least - 1,
            1 => largest + 1,
            2 => self.random.between(-900, 900),
            _ => self.random.between(least, largest),
        };
        let mut values = values_of(self.random, u, distances);
        if self.random.chance(1, 3) {
            let k = self.random.below(6) as usize;
            let (least, largest) = RANGES[k];
            values[k] = *self.random.pick(&[least - 1, least, largest, largest + 1]);
        }
        Call::Collimation(values)
    }
}
