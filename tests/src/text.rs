//! The text book (document 01, "The text book and the report"; document 02, W-202 to W-204,
//! W-210 and W-214), read from any bytes.

use crate::plain::{Call, Opened};

/// Columns of a line; with the line feed it has one byte more.
pub const COLUMNS: usize = 83;
pub const LINE: usize = 84;

/// Columns of a tag and of a field.
pub const TAG: usize = 3;
pub const FIELD: usize = 8;

/// A longer text is refused with 9.
pub const LONGEST_TEXT: usize = 65_268;

pub const HEADING: &[u8] = b"LEVEL BOOK";

/// A text line's number and the call that it holds, or its refusal 1 or 2.
#[derive(Clone, Debug, PartialEq, Eq)]
pub struct Line {
    pub number: i64,
    pub outcome: Result<Call, u8>,
}

/// The lines after the heading; if line 1 is another or missing, its refusal
/// alone. A line is the next 84 bytes, the last piece may be shorter.
pub fn parse(text: &[u8]) -> Result<Vec<Line>, u8> {
    if text.len() > LONGEST_TEXT {
        return Err(9);
    }
    let mut pieces = text.chunks(LINE);
    let headed = pieces.next().is_some_and(is_heading);
    if !headed {
        return Ok(vec![Line { number: 1, outcome: Err(1) }]);
    }
    let lines = pieces.zip(2..).map(|(piece, number)| Line { number, outcome: parse_line(piece) });
    Ok(lines.collect())
}

/// The 83 columns of a piece that has a line's shape.
fn columns(piece: &[u8]) -> Option<&[u8]> {
    if piece.len() == LINE && piece[COLUMNS] == b'\n' {
        Some(&piece[..COLUMNS])
    } else {
        None
    }
}

fn all_blank(bytes: &[u8]) -> bool {
    bytes.iter().all(|&byte| byte == b' ')
}

/// LEVEL BOOK and blanks.
fn is_heading(piece: &[u8]) -> bool {
    match columns(piece) {
        None => false,
        Some(columns) => columns.starts_with(HEADING) && all_blank(&columns[HEADING.len()..]),
    }
}

/// How many fields a tag has.
pub fn fields_of(tag: &[u8]) -> Option<usize> {
    match tag {
        b"LIN" => Some(5),
        b"STA" => Some(10),
        b"RUN" => Some(1),
        b"DRR" => Some(0),
        b"DRS" => Some(0),
        b"END" => Some(2),
        b"SPR" => Some(5),
        b"FIN" => Some(1),
        b"ANG" => Some(6),
        b"KON" => Some(2),
        b"LFT" => Some(0),
        _ => None,
    }
}

/// What a blank field stands for, counted from 0: the last one of LIN and SPR for tenths, any other
/// for nothing.
pub fn number_of_blanks(tag: &[u8], field: usize) -> Option<i64> {
    (matches!(tag, b"LIN" | b"SPR") && field == 4).then_some(10)
}

/// 1 for the wrong shape or tag, or anything but blanks after the last field;
/// then 2 for a field that is not a number.
pub fn parse_line(piece: &[u8]) -> Result<Call, u8> {
    let columns = columns(piece).ok_or(1)?;
    let (tag, rest) = columns.split_at(TAG);
    let count = fields_of(tag).ok_or(1)?;
    let (fields, beyond) = rest.split_at(count * FIELD);
    if !all_blank(beyond) {
        return Err(1);
    }
    let read = |(k, field)| if all_blank(field) { number_of_blanks(tag, k) } else { number(field) };
    let numbers: Option<Vec<i64>> = fields.chunks(FIELD).enumerate().map(read).collect();
    Ok(call(tag, &numbers.ok_or(2)?))
}

/// The call of a known tag with as many numbers as the tag has fields. STA
/// gives K, u, l, m, r of the back staff, then of the fore staff.
fn call(tag: &[u8], n: &[i64]) -> Call {
    let opened = || {
        Opened { order: n[0], instrument: n[1], start: n[2], height: n[3], prints: n[4] }
    };
    match tag {
        b"LIN" => Call::Open(opened()),
        b"SPR" => Call::OpenSpur(opened()),
        b"STA" => Call::Station {
            back_k: n[0],
            fore_k: n[5],
            readings: [[n[1], n[2], n[3], n[4]], [n[6], n[7], n[8], n[9]]],
        },
        b"RUN" => Call::EndRun(n[0]),
        b"DRR" => Call::DropRun,
        b"DRS" => Call::DropSection,
        b"FIN" => Call::CloseSpur(n[0]),
        b"ANG" => Call::Collimation([n[0], n[1], n[2], n[3], n[4], n[5]]),
        b"KON" => Call::Constants([n[0], n[1]]),
        b"LFT" => Call::LiftSection,
        _ => Call::CloseLine { number: n[0], height: n[1] },
    }
}

/// A number right-justified in its field: blanks, a minus or none directly
/// before the digits, no leading zero, no plus; -0 is not a number, nor is a
/// blank field.
pub fn number(field: &[u8]) -> Option<i64> {
    let blanks = field.iter().take_while(|&&byte| byte == b' ').count();
    let written = &field[blanks..];
    let (negative, digits) = match written.strip_prefix(b"-") {
        Some(digits) => (true, digits),
        None => (false, written),
    };
    if digits.is_empty() || !digits.iter().all(u8::is_ascii_digit) {
        return None;
    }
    if digits[0] == b'0' && (digits.len() > 1 || negative) {
        return None;
    }
    let size = digits.iter().fold(0, |sum, &digit| 10 * sum + i64::from(digit - b'0'));
    Some(if negative { -size } else { size })
}
