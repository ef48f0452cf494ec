//! Writing lines in the form of the text book and the report (document 01, "The
//! text book and the report"), and text books from calls.

use crate::plain::{Call, Opened};
use crate::text::{COLUMNS, FIELD};

/// Words filled with blanks to 83 columns, and a line feed.
pub fn filled(words: &str) -> Vec<u8> {
    assert!(words.len() <= COLUMNS, "more than a line: {words}");
    let mut line = format!("{words:<COLUMNS$}").into_bytes();
    line.push(b'\n');
    line
}

/// A number right-justified in its field, if it fits.
pub fn field(number: i64, width: usize) -> Option<String> {
    let written = format!("{number:>width$}");
    (written.len() == width).then_some(written)
}

/// A line from a tag and numbers; none if a number is wider than its field.
pub fn line(tag: &str, numbers: &[i64]) -> Option<Vec<u8>> {
    let fields: Option<String> = numbers.iter().map(|&number| field(number, FIELD)).collect();
    Some(filled(&format!("{tag}{}", fields?)))
}

pub fn heading() -> Vec<u8> {
    filled("LEVEL BOOK")
}

/// The tag and numbers of a call.
pub fn words_of(call: &Call) -> (&'static str, Vec<i64>) {
    let five = |o: Opened| vec![o.order, o.instrument, o.start, o.height, o.prints];
    match *call {
        Call::Open(opened) => ("LIN", five(opened)),
        Call::OpenSpur(opened) => ("SPR", five(opened)),
        Call::Station { back_k, fore_k, readings: [back, fore] } => {
            let mut numbers = vec![back_k];
            numbers.extend(back);
            numbers.push(fore_k);
            numbers.extend(fore);
            ("STA", numbers)
        }
        Call::EndRun(number) => ("RUN", vec![number]),
        Call::DropRun => ("DRR", vec![]),
        Call::DropSection => ("DRS", vec![]),
        Call::CloseLine { number, height } => ("END", vec![number, height]),
        Call::CloseSpur(number) => ("FIN", vec![number]),
        Call::Collimation(values) => ("ANG", values.to_vec()),
        Call::Constants(values) => ("KON", values.to_vec()),
        Call::LiftSection => ("LFT", vec![]),
    }
}

/// A call as the list runner takes it: its kind and its arguments, which are those of its text line.
pub fn numbers_of(call: &Call) -> Vec<i64> {
    let (tag, numbers) = words_of(call);
    let kinds = ["LIN", "STA", "RUN", "DRR", "DRS", "END", "SPR", "FIN", "ANG", "KON", "LFT"];
    let kind = kinds.iter().position(|&one| one == tag).expect("a tag") as i64 + 1;
    [vec![kind], numbers].concat()
}

/// The text line of a call; none if an argument is wider than eight columns.
pub fn line_of(call: &Call) -> Option<Vec<u8>> {
    let (tag, numbers) = words_of(call);
    line(tag, &numbers)
}

/// A text book: the heading, and the lines of those calls that fit a line.
pub fn text_of(calls: &[Call]) -> Vec<u8> {
    let mut text = heading();
    for line in calls.iter().filter_map(line_of) {
        text.extend(line);
    }
    text
}
