//! What a list of calls answers and leaves, in the numbers of the list runner.

use crate::closing::Closing;
use crate::fraction::narrow;
use crate::plain::{Answer, Call, Reading};
use crate::station::{accumulated_d, sum_of_heights, sum_of_sights};

/// The figures of a book: W, L, n, T, verdict, five of the line, and four of each of 65 points.
pub const FIGURES: usize = 10 + 4 * 65;

/// The plain reading of a list of calls: each call's refusal, 0 where it is taken, the reading
/// that is left, and what the closing gave.
pub fn read(calls: &[Call]) -> (Vec<u8>, Reading, Option<Closing>) {
    let (mut reading, mut closed) = (Reading::fresh(), None);
    let mut number_of = |call| match reading.apply(call) {
        Answer::Refused(number) => number,
        Answer::Taken => 0,
        Answer::Closed(closing) => {
            assert_eq!(closed.replace(closing), None, "closed twice: {calls:?}");
            0
        }
    };
    let numbers = calls.iter().map(&mut number_of).collect();
    (numbers, reading, closed)
}

/// What the plain reading is left with, as the figures of a book.
pub fn figures_of(reading: &Reading, closed: &Option<Closing>) -> Vec<i64> {
    let mut figures = vec![0; FIGURES];
    if let Some(closing) = closed {
        figures[..5].copy_from_slice(&[closing.w, closing.l, closing.n, closing.t, closing.verdict]);
        for (k, point) in closing.points.iter().enumerate() {
            figures[10 + 4 * k..14 + 4 * k].copy_from_slice(&[point.number, point.distance, point.correction, point.height]);
        }
    }
    figures[5] = reading.run.len() as i64;
    figures[6] = narrow(sum_of_heights(&reading.run, reading.staffs));
    figures[7] = narrow(sum_of_sights(&reading.run));
    figures[8] = narrow(accumulated_d(&reading.run));
    figures[9] = reading.sections.len() as i64;
    figures
}
