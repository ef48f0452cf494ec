//! Closing a line on its known end height, and a spur, which has none (document 01,
//! "Closure, corrections, heights"; document 02, W-202).

use crate::adjust::{self, Units};
use crate::fraction::narrow;
use crate::plain::{refuse_if, Opened, Outcome, Reading, Stage};
use crate::rules::{self, Class};

/// What closing gives, and the points that the report prints, start first. W is in the unit
/// of the corrections; `prints` is how many units of a height a mm has.
#[derive(Clone, Debug, PartialEq, Eq)]
pub struct Closing {
    pub w: i64,
    pub l: i64,
    pub n: i64,
    pub t: i64,
    pub verdict: i64,
    pub prints: i64,
    pub points: Vec<Point>,
}

/// A benchmark of the closed line: distance S in half dm from the start,
/// correction in quarter mm or, with measured constants, a tenth of that, height in mm;
/// correction and height in a tenth of their units where tenths are printed.
#[derive(Clone, Debug, PartialEq, Eq)]
pub struct Point {
    pub number: i64,
    pub distance: i64,
    pub correction: i64,
    pub height: i64,
}

impl Reading {
    pub(crate) fn close_line(&mut self, number: i64, height: i64) -> Result<Closing, u8> {
        refuse_if(!rules::number_allowed(number), 4)?;
        refuse_if(!rules::height_allowed(height), 5)?;
        let (class, opened) = self.open_line()?;
        refuse_if(class == Class::Spur, 41)?;
        self.ends_on(number)?;
        let is_loop = self.loop_is_shut();
        refuse_if(is_loop && height != opened.height, 34)?;
        let closing = self.closing(class, opened, Some(height));
        let (units, sums) = (self.units(opened), self.sums_of_sections());
        let w = adjust::closure(units, opened.height, Some(height), &sums);
        let l = i128::from(closing.l);
        refuse_if(rules::longest_line(class, is_loop).is_some_and(|longest| l > longest), 35)?;
        refuse_if(!rules::closure_allowed(class, self.staffs, w, l), 36)?;
        self.stage = Stage::Closed;
        self.end_height = Some(height);
        Ok(closing)
    }

    pub(crate) fn close_spur(&mut self, number: i64) -> Result<Closing, u8> {
        refuse_if(!rules::number_allowed(number), 4)?;
        let (class, opened) = self.open_line()?;
        refuse_if(class != Class::Spur, 41)?;
        self.ends_on(number)?;
        self.stage = Stage::Closed;
        Ok(self.closing(class, opened, None))
    }

    /// All that was begun is finished, and the last section has this number.
    fn ends_on(&self, number: i64) -> Outcome {
        refuse_if(!self.run.is_empty() || self.waiting.is_some(), 33)?;
        let last = self.sections.last().ok_or(33)?;
        refuse_if(number != last.number, 34)
    }

    /// What a mm has of the figures of this line.
    pub fn units(&self, opened: Opened) -> Units {
        Units { kept: self.staffs.units(), printed: opened.prints.into() }
    }

    /// What closing gives, limits untested.
    fn closing(&self, class: Class, opened: Opened, end: Option<i64>) -> Closing {
        let sums = self.sums_of_sections();
        let l: i128 = sums.iter().map(|&(_, r)| i128::from(r)).sum();
        let n = self.sections.len() as i128;
        let t = self.sum_of_squares();
        let units = self.units(opened);
        Closing {
            w: narrow(units.printed * adjust::closure(units, opened.height, end, &sums)),
            l: narrow(l),
            n: narrow(n),
            t: narrow(t),
            verdict: narrow(rules::verdict(class, n, t)),
            prints: opened.prints,
            points: self.points(opened, end, &sums),
        }
    }

    /// The start with S and correction 0, then one point for each section.
    fn points(&self, opened: Opened, end: Option<i64>, sums: &[(i64, i64)]) -> Vec<Point> {
        let units = self.units(opened);
        let heights = adjust::heights(units, opened.height, end, sums);
        let corrections = adjust::corrections(units, opened.height, sums, &heights);
        let height = narrow(units.printed * i128::from(opened.height));
        let start = Point { number: opened.start, distance: 0, correction: 0, height };
        let mut distance = 0;
        let mut points = vec![start];
        for (k, section) in self.sections.iter().enumerate() {
            distance += sums[k].1;
            points.push(Point {
                number: section.number,
                distance,
                correction: corrections[k],
                height: heights[k],
            });
        }
        points
    }
}
