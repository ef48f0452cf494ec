//! The work on a line: setting out, runs, sections, closing.

use crate::mutate::any_call;
use crate::opening::opening_call;
use crate::caller::{Goal, Caller};
use crate::plain::Call;
use crate::rules::{Class, STATIONS_OF_A_RUN};

impl Caller<'_> {
    /// Opens the line, gives measured constants where it has them, and tests the level; before, between and after something may go wrong.
    pub fn set_out(&mut self) {
        let goal = Goal { stations: 2, sum: 400, twice: 0 };
        if self.mistaken() {
            match self.random.below(4) {
                0 => {
                    self.good_station(&goal);
                }
                1 => self.trouble(&goal),
                2 => {
                    let unopened = self.doubtful_constants();
                    self.put(unopened);
                }
                _ => self.wrong_opening(),
            }
        }
        let opening = opening_call(self.style.class, self.opening_values());
        self.put(opening);
        if self.mistaken() {
            let again = self.doubtful_opening();
            self.put(again);
        }
        self.measure();
        self.collimate();
    }

    /// An opening with one or two bad arguments; a spur's order 3 is one.
    fn wrong_opening(&mut self) {
        let spur = self.style.class == Class::Spur;
        let mut opened = self.opening_values();
        for _ in 0..=self.random.below(2) {
            match self.random.below(5) {
                0 => opened.order = *self.random.pick(&[if spur { 3 } else { 2 }, 5, 0, -3]),
                1 => opened.instrument = *self.random.pick(&[2, 0, 4, -1, 5]),
                2 => opened.start = *self.random.pick(&[0, 10_000, -1]),
                3 => opened.prints = self.no_print_unit(),
                _ => opened.height = *self.random.pick(&[-1_000_000, 9_000_000]),
            }
        }
        self.put(if spur { Call::OpenSpur(opened) } else { Call::Open(opened) });
    }

    /// Stations until the run has as many as its goal; a refused one is shot
    /// again.
    pub fn run(&mut self, goal: &Goal) {
        while self.reading.run.len() < goal.stations {
            if self.mistaken() {
                self.trouble(goal);
            } else if !self.good_station(goal) {
                return;
            }
        }
        if self.reading.run.len() == STATIONS_OF_A_RUN && self.random.chance(1, 2) {
            self.good_station(goal);
        }
    }

    /// Ends a run on a number, perhaps on a doubtful one before.
    fn end_run(&mut self, number: i64) -> bool {
        if self.mistaken() {
            let doubtful = self.doubtful_number();
            self.put(Call::EndRun(doubtful));
        }
        self.put(Call::EndRun(number))
    }

    /// Levels one section; a return that does not agree is shot again. Returns
    /// whether the section stands.
    pub fn section(&mut self, number: i64, stations: usize, shuts_loop: bool) -> bool {
        let before = self.reading.sections.len();
        let goal = self.outward_goal(stations, shuts_loop);
        self.run(&goal);
        self.end_run(number);
        for _ in 0..4 {
            if self.reading.waiting.is_none() {
                break;
            }
            let longer = self.random.chance(1, 5) && stations < STATIONS_OF_A_RUN;
            let goal = self.return_goal(stations + if longer { 2 } else { 0 }, shuts_loop);
            self.run(&goal);
            let begin = self.reading.section_begin(self.opened().start);
            if !self.end_run(begin) {
                self.put(Call::DropRun);
            }
        }
        if self.reading.waiting.is_some() || !self.reading.run.is_empty() {
            self.put(Call::DropSection);
        }
        self.reading.sections.len() > before
    }

    /// Stations that bring a loop back to its start height, at most 200.
    pub fn stations_to_shut(&self, usual: usize) -> usize {
        let (q, _) = self.line_sums();
        let needed = (q.unsigned_abs() / 2 / 5_000) as usize + 2;
        let even = 2 * needed.div_ceil(2);
        even.max(usual).min(STATIONS_OF_A_RUN)
    }

    /// Closes the line, after up to two closings that may be beyond the limit.
    pub fn close(&mut self) {
        if self.mistaken() {
            let doubtful = self.doubtful_closing();
            self.put(doubtful);
        }
        for attempt in 0..3 {
            let number = self.reading.section_begin(self.opened().start);
            let call = match self.class() {
                Class::Spur => Call::CloseSpur(number),
                _ => Call::CloseLine { number, height: self.wished_end(attempt == 2) },
            };
            if self.put(call) {
                return;
            }
            self.level_the_end_anew();
        }
    }

    /// An end height for a wished W; for a W of 0 to 3 if it has to do.
    fn wished_end(&mut self, has_to_do: bool) -> i64 {
        let start = self.opened().height;
        if self.reading.loop_is_shut() {
            let other = !has_to_do && self.random.chance(1, 8);
            return if other { start + self.random.sign(1) } else { start };
        }
        let (q, l) = self.line_sums();
        if has_to_do {
            return (4 * start + q).div_euclid(4);
        }
        let w = self.wished_w(l);
        (4 * start + q - w).div_euclid(4) + self.random.between(0, 1)
    }

    /// Calls after the closing.
    pub fn afterwards(&mut self) {
        let goal = Goal { stations: 2, sum: 400, twice: 0 };
        for _ in 0..self.random.below(4) {
            let call = match self.random.below(8) {
                0 => self.doubtful_opening(),
                1 => self.doubtful_closing(),
                2 => Call::EndRun(self.doubtful_number()),
                3 => self.random.pick(&[Call::DropRun, Call::DropSection, Call::LiftSection]).clone(),
                4 => any_call(self.random),
                5 => self.doubtful_collimation(),
                6 => self.doubtful_constants(),
                _ => {
                    self.good_station(&goal);
                    continue;
                }
            };
            self.put(call);
        }
    }
}
