//! Measured constants in their place and out of it.

use crate::caller::{Caller, Goal};
use crate::constants::{NOMINAL, RANGES};
use crate::plain::Call;

impl Caller<'_> {
    /// Gives the constants where the line has measured ones; before that, and after, something may go wrong.
    pub fn measure(&mut self) {
        while self.mistaken() {
            self.before_the_constants();
        }
        if self.style.measured {
            let good = self.measured_constants();
            self.put(Call::Constants(good));
        }
        if self.mistaken() {
            let again = self.doubtful_constants();
            self.put(again);
        }
    }

    /// Mostly a call that is refused, after which the constants are in their place all the same; a drop is taken, and they are not.
    fn before_the_constants(&mut self) {
        let goal = Goal { stations: 2, sum: 400, twice: 0 };
        let call = match self.random.below(6) {
            0 => {
                self.good_station(&goal);
                return;
            }
            1 => return self.trouble(&goal),
            2 => self.random.pick(&[Call::DropRun, Call::DropSection, Call::LiftSection]).clone(),
            3 => self.doubtful_closing(),
            _ => Call::Constants(self.constants_out_of_range()),
        };
        self.put(call);
    }

    /// Constants within their ranges: at the ends, as nominal, with whole mm or of any tenths.
    fn measured_constants(&mut self) -> [i64; 2] {
        let mut constant = |k: usize| {
            let (least, largest) = RANGES[k];
            match self.random.below(8) {
                0 => least,
                1 => largest,
                2 => 10 * NOMINAL[k],
                3 | 4 => 10 * (NOMINAL[k] + self.random.between(-3, 3)),
                5 => 10 * NOMINAL[k] + self.random.sign(1),
                _ => self.random.between(least, largest),
            }
        };
        [constant(0), constant(1)]
    }

    /// One of them beyond an end of its range, in mm, or the other staff's.
    fn constants_out_of_range(&mut self) -> [i64; 2] {
        let mut values = self.measured_constants();
        let k = self.random.below(2) as usize;
        let (least, largest) = RANGES[k];
        values[k] = *self.random.pick(&[least - 1, largest + 1, NOMINAL[k], values[1 - k]]);
        values
    }

    /// Constants, one in three out of range.
    pub fn doubtful_constants(&mut self) -> Call {
        let out = self.random.chance(1, 3);
        Call::Constants(if out { self.constants_out_of_range() } else { self.measured_constants() })
    }
}
