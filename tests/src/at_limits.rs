//! Calls that come to the limits: sums of sights, D and W there, and
//! figures that fall on a tie.

use crate::caller::{Goal, Caller};
use crate::fraction::narrow;
use crate::rules::{self, Class};

/// The largest number from 0 on for which a rule still holds.
fn largest(rule: impl Fn(i64) -> bool) -> i64 {
    let mut x = 0;
    while rule(x + 1) {
        x += 1;
    }
    x
}

impl Caller<'_> {
    /// Whether a D of so many half mm is within its limit.
    fn agrees(&self, d: i64, r: i64) -> bool {
        let kept = self.parts() * d;
        rules::double_run_agrees(self.class(), self.reading.staffs, kept.into(), r.into())
    }

    /// The sum of sights that a run of so many stations is to have.
    fn wished_sum(&mut self, stations: usize) -> i64 {
        let stations = stations as i64;
        let most = 2 * self.table().sight * stations;
        if let Some(sum) = self.sum_to_length() {
            return sum.clamp(4 * stations, most);
        }
        let usual = (2 * self.style.sight * stations).clamp(4 * stations, most);
        let outward = self.class().goes_both_ways() && self.reading.waiting.is_none();
        let plain = self.style.equal || self.random.chance(1, 3);
        if outward || (plain && !self.style.verdict) {
            return usual;
        }
        let short = self.sum_about_the_shortest().filter(|sum| (4 * stations..=most).contains(sum));
        short.unwrap_or_else(|| self.sum_to_square(usual, (4 * stations, most)))
    }

    /// One in three returns: the sum for an R about the one that a shorter one counts as for D
    /// (document 02, W-201), and about the one where D's limit first rises above that one's.
    fn sum_about_the_shortest(&mut self) -> Option<i64> {
        let due = self.class().goes_both_ways() && !self.style.verdict && self.random.chance(1, 3);
        if !due {
            return None;
        }
        let shortest = narrow(rules::SHORTEST_FOR_D);
        let limit = largest(|d| self.agrees(d, shortest));
        let rises = shortest + largest(|more| !self.agrees(limit + 1, shortest + more)) + 1;
        let r = match self.random.below(6) {
            0 => shortest - 1,
            1 => shortest,
            2 => rises - 1,
            3 => rises,
            _ => self.random.between(shortest / 2, rises),
        };
        let (_, outward) = self.waiting_sums();
        Some(r - outward)
    }

    /// The sum that brings the line to the length set for this section; an
    /// outward run that waits takes half of it.
    fn sum_to_length(&self) -> Option<i64> {
        let length = self.length?;
        let (_, done) = self.line_sums();
        let (_, outward) = self.waiting_sums();
        if self.reading.waiting.is_some() {
            Some(length - done - outward)
        } else {
            Some((length - done) / 2)
        }
    }

    /// A sum near the usual one for which a root limit is met exactly: 25 W^2 =
    /// 8 L and on a spur 25 D^2 = 2 R where L or R is 50 k^2, 625 D^2 = 18 R and
    /// 625 W^2 = 72 L where R or L is 1,250 k^2; or for which t falls on ties, where
    /// R is 64 k^2 times a power of 5. One off now and then.
    fn sum_to_square(&mut self, usual: i64, (least, most): (i64, i64)) -> i64 {
        let (_, done) = self.line_sums();
        let (_, outward) = self.waiting_sums();
        let power = self.random.below(4) as u32;
        let (before, each, unit) = match (self.class(), self.random.below(6)) {
            (Class::Fourth, _) => (done, 2, 50),
            (_, 3) if !self.style.verdict => (outward, 1, 64 * 5_i64.pow(power)),
            (Class::Spur, _) => (outward, 1, 50),
            (Class::Third, 0..=2) if !self.style.verdict => (done + outward, 1, 1_250),
            (Class::Third, _) => (outward, 1, 1_250),
        };
        let off = if self.style.verdict { 0 } else { *self.random.pick(&[0, 0, 0, -each, each]) };
        let k = ((before + each * usual) / unit).isqrt();
        let sums = [k, k + 1].map(|k| (unit * k * k + off - before) / each);
        sums.into_iter().find(|sum| (least..=most).contains(sum)).unwrap_or(usual)
    }

    /// D of a return for this R: at, beside and beyond its limit, on a tie of t,
    /// at the verdict's limit, or anything within.
    fn wished_d(&mut self, r: i64) -> i64 {
        let Some(set) = self.class().terms().both_ways else { return 0 };
        let limit = largest(|d| self.agrees(d, r));
        let (staffs, parts) = (self.reading.staffs, self.parts());
        let t = |d: i64| rules::square_per_km(staffs, (parts * d).into(), r.into());
        let mean = largest(|d| t(d) <= set.accidental);
        let d = match self.random.below(12) {
            0 if self.style.verdict => mean + 1,
            1 if self.style.verdict => (mean - 1).max(0),
            _ if self.style.verdict => mean,
            0 | 1 => limit,
            2 => limit + 1,
            3 => (limit - 1).max(0),
            4 | 5 => self.tied_d(r, limit),
            6 => mean,
            7 => 0,
            _ => self.random.between(0, limit),
        };
        self.random.sign(d)
    }

    /// A D for which 500,000 D^2 / R is half-way between whole numbers.
    fn tied_d(&mut self, r: i64, limit: i64) -> i64 {
        let tied = |d: &i64| (1_000_000 * d * d) % r == 0 && (1_000_000 * d * d / r) % 2 == 1;
        let all: Vec<i64> = (1..=limit).filter(tied).collect();
        if all.is_empty() {
            self.random.between(0, limit)
        } else {
            *self.random.pick(&all)
        }
    }

    /// W for this L: at, beside and beyond its limit, or anything within; not for a spur,
    /// whose W has no limit.
    pub fn wished_w(&mut self, l: i64) -> i64 {
        let class = self.class();
        assert!(class != Class::Spur, "a spur has no W");
        let (staffs, parts) = (self.reading.staffs, self.parts());
        let allowed = |w: i64| rules::closure_allowed(class, staffs, (parts * w).into(), l.into());
        let limit = largest(allowed);
        let w = match self.random.below(10) {
            0..=3 => limit,
            4 => limit + 1,
            5 => (limit - 1).max(0),
            6 => limit + self.random.between(1, 60),
            7 => 0,
            _ => self.random.between(0, limit),
        };
        self.random.sign(w)
    }

    /// An outward run; the last one of a loop brings the heights back to W.
    pub fn outward_goal(&mut self, stations: usize, shuts_loop: bool) -> Goal {
        let sum = self.wished_sum(stations);
        let (q, l) = self.line_sums();
        let usual = self.style.relief * stations as i64;
        let twice = if let Some(climb) = self.climb {
            climb
        } else if shuts_loop {
            (self.wished_w(l + 2 * sum) - q) / 2
        } else {
            self.random.between(-usual, usual)
        };
        Goal { stations, sum, twice }
    }

    /// A return run, for a D; where it shuts a loop, mostly for a W.
    pub fn return_goal(&mut self, stations: usize, shuts_loop: bool) -> Goal {
        let sum = self.wished_sum(stations);
        let (q, l) = self.line_sums();
        let (heights, sights) = self.waiting_sums();
        let r = sights + sum;
        let mut d = self.wished_d(r);
        if shuts_loop {
            let for_w = q + 2 * heights - self.wished_w(l + r);
            if self.agrees(for_w, r) {
                d = for_w;
            }
        }
        Goal { stations, sum, twice: d - heights }
    }
}
