//! Warnings of drift (document 02, W-208; source document 003, 6.10.4): windows of sections whose D have one sign and exceed a fifth of the limit.

use crate::plain::{refuse_if, Reading, Section};
use crate::report;
use crate::rules::{Class, SHORTEST_FOR_D};
use crate::write::filled;

/// The most warnings: a line has 64 sections, and a window at least 3.
pub const MOST_WARNINGS: usize = 62;

impl Reading {
    /// The numbers, from 1 in line order, of the sections at which such a window begins.
    pub fn drift(&self, window: i64) -> Result<Vec<usize>, u8> {
        refuse_if(!(3..=10).contains(&window) || self.class == Some(Class::Fourth), 51)?;
        let signs: Vec<i128> = self.sections.iter().map(|one| self.drift_of(one)).collect();
        let warned = |&(_, signs): &(usize, &[i128])| signs.iter().all(|&sign| sign != 0 && sign == signs[0]);
        Ok((1..).zip(signs.windows(window as usize)).filter(warned).map(|(first, _)| first).collect())
    }

    /// The sign of a section's D where it exceeds a fifth of the limit, else 0.
    fn drift_of(&self, section: &Section) -> i128 {
        let (Some(d), r) = (section.d(self.staffs), section.r().max(SHORTEST_FOR_D)) else { return 0 };
        let square = self.staffs.parts() * self.staffs.parts();
        let exceeds = match self.class {
            Some(Class::Third) => 15_625 * d * d > square * 18 * r,
            _ => 625 * d * d > square * 2 * r,
        };
        if exceeds { d.signum() } else { 0 }
    }
}

/// The warnings of a text book's line: 9 for a text that is too long, then 51.
pub fn drift(text: &[u8], window: i64) -> Result<Vec<usize>, u8> {
    report::read(text)?.reading.drift(window)
}

/// The call over a lent list: how many there are, and as many of them as it has places; it is untouched where the call is refused.
pub fn drift_into(text: &[u8], window: i64, firsts: &mut [usize]) -> Result<usize, u8> {
    let warnings = drift(text, window)?;
    firsts.iter_mut().zip(&warnings).for_each(|(place, &first)| *place = first);
    Ok(warnings.len())
}

/// The window that the program's argument gives: a number from 0 to 10 as one writes it, and 0 for anything else.
fn window_of(argument: Option<&str>) -> i64 {
    (0..=10).find(|one| argument == Some(&one.to_string())).unwrap_or(0)
}

/// What the program prints: a title and a line for each warning, or one line with the refusal.
pub fn printed(argument: Option<&str>, text: &[u8]) -> Vec<u8> {
    let page = |warnings: Vec<usize>| {
        let lines = warnings.into_iter().map(|first| report::line_of("DRF", &[first as i64]));
        [vec![filled("WARNINGS OF DRIFT")], lines.collect()].concat().concat()
    };
    drift(text, window_of(argument)).map_or_else(report::refused, page)
}
