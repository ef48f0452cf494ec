//! The report (document 01, "The text book and the report"; document 02, W-202, W-214).

use crate::closing::{Closing, Point};
use crate::plain::{Answer, Reading};
use crate::text;
use crate::write::{field, filled, line};

/// A height below this one takes sixteen columns in place of eight, and so does each in tenths.
const LOWEST_IN_EIGHT: i64 = -9_999_999;

/// CLO prints a larger T as this one.
const LARGEST_T: i64 = 99_999_999;

/// What a text book says: the refused lines with their refusals, in order, what the plain reading is left with, and what the closing gave.
pub struct Read {
    pub refusals: Vec<(i64, u8)>,
    pub reading: Reading,
    pub closing: Option<Closing>,
}

/// A text book read, or 9 for a text that is too long.
pub fn read(text: &[u8]) -> Result<Read, u8> {
    let mut read = Read { refusals: Vec::new(), reading: Reading::fresh(), closing: None };
    for line in text::parse(text)? {
        let answer = match &line.outcome {
            Err(refusal) => Answer::Refused(*refusal),
            Ok(call) => read.reading.apply(call),
        };
        match answer {
            Answer::Refused(refusal) => read.refusals.push((line.number, refusal)),
            Answer::Taken => {}
            Answer::Closed(given) => read.closing = Some(given),
        }
    }
    Ok(read)
}

/// The report of a text book, or 9 for a text that is too long.
pub fn reduce(text: &[u8]) -> Result<Vec<u8>, u8> {
    let Read { refusals, reading, closing } = read(text)?;
    Ok(report(&refusals, reading.sections.len(), closing.as_ref()))
}

/// A shorter buffer is refused with 10.
pub const SHORTEST_BUFFER: usize = 65_536;

/// The call over a lent buffer: the report into its beginning, and the report's
/// length. After refusal 9 or 10 the buffer is untouched.
pub fn reduce_into(text: &[u8], buffer: &mut [u8]) -> Result<usize, u8> {
    let report = reduce(text)?;
    if buffer.len() < SHORTEST_BUFFER {
        return Err(10);
    }
    buffer[..report.len()].copy_from_slice(&report);
    Ok(report.len())
}

/// What the program prints: the report, or for 9 the single line REF 0 9.
pub fn printed(text: &[u8]) -> Vec<u8> {
    reduce(text).unwrap_or_else(refused)
}

/// What a program prints that refuses its input whole.
pub fn refused(refusal: u8) -> Vec<u8> {
    line_of("REF", &[0, i64::from(refusal)])
}

/// Title, refusals (text line, number), then the closing or OPN with the number
/// of finished sections.
pub fn report(refusals: &[(i64, u8)], sections: usize, closing: Option<&Closing>) -> Vec<u8> {
    let mut report = filled("REDUCED LEVELS");
    for &(number, refusal) in refusals {
        report.extend(line_of("REF", &[number, i64::from(refusal)]));
    }
    match closing {
        None => report.extend(line_of("OPN", &[sections as i64])),
        Some(closing) => {
            let Closing { w, l, n, t, verdict, prints, points } = closing;
            report.extend(line_of("CLO", &[*w, *l, *n, LARGEST_T.min(*t), *verdict]));
            for point in points {
                report.extend(point_line(point, *prints));
            }
        }
    }
    report
}

/// A line whose numbers have eight columns each.
pub fn line_of(tag: &str, numbers: &[i64]) -> Vec<u8> {
    line(tag, numbers).expect("figures of eight columns")
}

/// PNT with number, S, correction and height.
fn point_line(point: &Point, prints: i64) -> Vec<u8> {
    let wide = if prints == 10 || point.height < LOWEST_IN_EIGHT { 16 } else { 8 };
    let fields = [
        field(point.number, 8),
        field(point.distance, 8),
        field(point.correction, 8),
        field(point.height, wide),
    ];
    let fields: Option<String> = fields.into_iter().collect();
    filled(&format!("PNT{}", fields.expect("figures of eight columns")))
}
