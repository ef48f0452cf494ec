//! What the rules ask of the lists that the plain reading keeps. Nothing here
//! changes a list.

use crate::fraction::narrow;
use crate::plain::{Opened, Reading, Stage};
use crate::rules::{self, Class};

impl Reading {
    /// What was opened, or 21 on a book that is not open (document 01, "What the
    /// book's state causes").
    pub fn open_line(&self) -> Result<(Class, Opened), u8> {
        match (self.stage, self.class, self.opened) {
            (Stage::Open, Some(class), Some(opened)) => Ok((class, opened)),
            _ => Err(21),
        }
    }

    /// The loop is shut while a finished section carries the start number.
    pub fn loop_is_shut(&self) -> bool {
        match self.opened {
            None => false,
            Some(opened) => self.sections.iter().any(|one| one.number == opened.start),
        }
    }

    /// Within a run the back staff is the fore staff of the station before; a
    /// return begins with the other staff than the one that ended the outward
    /// run; an outward run begins with either (document 01, "The station").
    pub fn in_turn(&self, back_k: i64) -> bool {
        if let Some(before) = self.run.last() {
            return back_k == before.fore_k;
        }
        match &self.waiting {
            None => true,
            Some(waiting) => {
                let last = waiting.outward.last().expect("a waiting run has stations");
                back_k != last.fore_k
            }
        }
    }

    /// An outward run ends on a number not yet on the line; the start number
    /// alone may come again, once a section stands, but not on a spur.
    pub fn may_end_outward_on(&self, number: i64, class: Class, start: i64) -> bool {
        if number == start {
            return class.may_be_loop() && !self.sections.is_empty();
        }
        self.sections.iter().all(|one| one.number != number)
    }

    /// The number where the section in work began.
    pub fn section_begin(&self, start: i64) -> i64 {
        match self.sections.last() {
            None => start,
            Some(last) => last.number,
        }
    }

    /// Q and R of the finished sections.
    pub fn sums_of_sections(&self) -> Vec<(i64, i64)> {
        self.sections.iter().map(|one| (narrow(one.q(self.staffs)), narrow(one.r()))).collect()
    }

    /// T, the sum of t over the sections that have a return.
    pub fn sum_of_squares(&self) -> i128 {
        self.sections
            .iter()
            .filter_map(|one| Some(rules::square_per_km(self.staffs, one.d(self.staffs)?, one.r())))
            .sum()
    }
}
