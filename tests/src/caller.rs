//! A caller: it makes calls and keeps the plain reading of them, so
//! that it can come to the limits.

use crate::constants::NOMINAL;
use crate::fraction::narrow;
use crate::opening::usual;
use crate::plain::{Answer, Call, Opened, Reading};
use crate::random::Random;
use crate::rules::{self, Class};
use crate::wished::{faces, largest_twice, other_staff, station_of, Wish, STEEPEST};
use crate::station::{accumulated_d, sum_of_heights, sum_of_sights};

/// How a line is levelled: class and instrument, usual sight (dm), usual height
/// of a station (half mm), whether all sights are the same, whether D is set for
/// a verdict at its limit, whether the constants are measured, one section in how many is lifted
/// and levelled anew (0: none), and one call in how many goes wrong (0: none).
#[derive(Clone, Debug)]
pub struct Style {
    pub class: Class,
    pub instrument: i64,
    pub sight: i64,
    pub relief: i64,
    pub equal: bool,
    pub verdict: bool,
    pub measured: bool,
    pub lifts: u64,
    pub trouble: u64,
}

/// What a run is to have: stations, sum of sights (dm), sum of heights (half mm).
#[derive(Clone, Debug)]
pub struct Goal {
    pub stations: usize,
    pub sum: i64,
    pub twice: i64,
}

/// A station's limits in 64 bits.
#[derive(Clone, Debug)]
pub struct Table {
    pub sight: i64,
    pub d: i64,
    pub accumulated: i64,
    pub e: i64,
    pub faces: i64,
}

/// `length` is the length of line (half dm) that the section in work is to bring,
/// `climb` the sum of heights (half mm) of its outward run, where these are set.
pub struct Caller<'r> {
    pub random: &'r mut Random,
    pub style: Style,
    pub length: Option<i64>,
    pub climb: Option<i64>,
    pub reading: Reading,
    pub calls: Vec<Call>,
}

impl<'r> Caller<'r> {
    pub fn new(random: &'r mut Random, style: Style) -> Caller<'r> {
        let reading = Reading::fresh();
        Caller { random, style, length: None, climb: None, reading, calls: Vec::new() }
    }

    /// Makes a call; true if it was taken.
    pub fn put(&mut self, call: Call) -> bool {
        let answer = self.reading.apply(&call);
        self.calls.push(call);
        !matches!(answer, Answer::Refused(_))
    }

    pub fn opened(&self) -> Opened {
        let Style { class, instrument, .. } = self.style;
        self.reading.opened.unwrap_or(Opened { instrument, height: 0, ..usual(class.order()) })
    }

    /// What was opened, which another call than the style's may have done.
    pub fn class(&self) -> Class {
        self.reading.class.unwrap_or(self.style.class)
    }

    pub fn table(&self) -> Table {
        let opened = self.opened();
        let limits = rules::limits(opened.order, opened.instrument);
        Table {
            sight: narrow(limits.sight),
            d: narrow(limits.d),
            accumulated: narrow(limits.accumulated),
            e: narrow(limits.e),
            faces: narrow(limits.faces),
        }
    }

    pub fn accumulated(&self) -> i64 {
        narrow(accumulated_d(&self.reading.run))
    }

    /// The parts of a half or a quarter mm that heights are kept in.
    pub fn parts(&self) -> i64 {
        narrow(self.reading.staffs.parts())
    }

    /// Of a figure that is kept in these parts the half or quarter mm, of which it has whole ones:
    /// over an ended run the constants cancel, its staffs being in turn and its count even.
    fn whole(&self, figure: i64) -> i64 {
        assert_eq!(figure % self.parts(), 0, "a run that is not ended");
        figure / self.parts()
    }

    /// Sums of heights, in the parts that they are kept in, and of sights over the present run.
    pub fn run_sums(&self) -> (i64, i64) {
        let heights = sum_of_heights(&self.reading.run, self.reading.staffs);
        (narrow(heights), narrow(sum_of_sights(&self.reading.run)))
    }

    /// Sums of heights (half mm) and of sights over the waiting outward run, 0 where none waits.
    pub fn waiting_sums(&self) -> (i64, i64) {
        match &self.reading.waiting {
            None => (0, 0),
            Some(waiting) => {
                let heights = sum_of_heights(&waiting.outward, self.reading.staffs);
                (self.whole(narrow(heights)), narrow(sum_of_sights(&waiting.outward)))
            }
        }
    }

    /// Sums of Q (quarter mm) and of R over the finished sections.
    pub fn line_sums(&self) -> (i64, i64) {
        let sums = self.reading.sums_of_sections();
        (self.whole(sums.iter().map(|one| one.0).sum()), sums.iter().map(|one| one.1).sum())
    }

    /// The constant of a back staff that is in turn.
    pub fn next_staff(&mut self) -> i64 {
        let constant = *self.random.pick(&NOMINAL);
        if self.reading.in_turn(constant) {
            constant
        } else {
            other_staff(constant)
        }
    }

    /// A station within all limits that works towards the goal of its run.
    pub fn good_wish(&mut self, goal: &Goal) -> Wish {
        let (heights, sights) = self.run_sums();
        let left = (goal.stations.max(self.reading.run.len() + 1) - self.reading.run.len()) as i64;
        let most = 2 * self.table().sight;
        let noise = if self.style.equal { 0 } else { self.style.sight / 4 };
        let sum = self.share(goal.sum - sights, left, (4, most), noise);
        let (staffs, parts) = (self.reading.staffs, self.parts());
        let steepest = parts * STEEPEST;
        let rest = parts * goal.twice - heights;
        let twice = self.share(rest, left, (-steepest, steepest), parts * self.style.relief);
        let table = self.table();
        let back_k = self.next_staff();
        let twice = largest_twice(staffs, back_k, twice);
        Wish {
            staffs,
            back_k,
            sights: self.sights_of_sum(sum),
            faces: faces(self.random, (staffs, back_k), table.e, table.faces, twice),
            twice,
        }
    }

    /// This station's part of what is left, so that the others can bring the
    /// rest and the last one meets it.
    fn share(&mut self, rest: i64, left: i64, (least, most): (i64, i64), noise: i64) -> i64 {
        let lowest = (rest - (left - 1) * most).clamp(least, most);
        let highest = (rest - (left - 1) * least).clamp(least, most);
        let noise = self.random.between(-noise, noise);
        (rest / left + noise).clamp(lowest, highest)
    }

    /// Back and fore sight with this sum, d and accumulated d within limits, at
    /// the limits now and then.
    pub fn sights_of_sum(&mut self, sum: i64) -> [i64; 2] {
        let table = self.table();
        let accumulated = self.accumulated();
        let widest = table.d.min(sum - 4).min(2 * table.sight - sum);
        let lowest = (-widest).max(-table.accumulated - accumulated);
        let highest = widest.min(table.accumulated - accumulated);
        let fits = |d: i64| (lowest..=highest).contains(&d) && (sum + d) % 2 == 0;
        let wished = match self.random.below(4) {
            _ if self.style.equal => 0,
            0 => lowest,
            1 => highest,
            _ => self.random.between(lowest, highest),
        };
        let near = [wished, wished + 1, wished - 1];
        let d = near.into_iter().find(|&d| fits(d)).unwrap_or(0);
        [(sum + d) / 2, (sum - d) / 2]
    }

    pub fn good_station(&mut self, goal: &Goal) -> bool {
        let wish = self.good_wish(goal);
        let call = station_of(self.random, &wish);
        self.put(call)
    }

    /// A benchmark number that is not on the line.
    pub fn new_number(&mut self) -> i64 {
        loop {
            let number = match self.random.below(40) {
                0 => 1,
                1 => 9_999,
                _ => self.random.between(1, 9_999),
            };
            let opened = self.opened();
            let known = self.reading.sections.iter().any(|one| one.number == number);
            if number != opened.start && !known {
                return number;
            }
        }
    }
}
