//! The largest texts: 777 lines.

use crate::opening::{closing_call, opening};
use crate::plain::Call;
use crate::rules::Class;
use crate::text::LONGEST_TEXT;
use crate::write::{filled, heading, text_of};

/// A book of 64 sections that is closed. Its outward runs have so many pairs of stations together, which the first sections have one more of
/// where 64 does not divide them. At third order and on a spur each section is levelled out and back.
pub fn sixty_four_sections(class: Class, pairs: usize) -> Vec<Call> {
    let station = |back_k: i64, back, fore| Call::Station { back_k, fore_k: 9_474 - back_k, readings: [back, fore] };
    let out = [
        station(4_787, [1_300, 1_100, 1_200, 5_987], [1_000, 800, 900, 5_587]),
        station(4_687, [1_500, 1_300, 1_400, 6_087], [1_250, 1_050, 1_150, 5_937]),
    ];
    let back = [
        station(4_687, [1_250, 1_050, 1_150, 5_837], [1_500, 1_300, 1_400, 6_187]),
        station(4_787, [1_000, 800, 900, 5_687], [1_300, 1_100, 1_200, 5_887]),
    ];
    let mut calls = opening(class);
    for k in 0..64 {
        let begin = k as i64 + 1;
        let here = pairs / 64 + usize::from(k < pairs % 64);
        calls.extend(out.iter().cycle().take(2 * here).cloned());
        calls.push(Call::EndRun(begin + 1));
        if class.goes_both_ways() {
            calls.extend(back.iter().cycle().take(2 * here).cloned());
            calls.push(Call::EndRun(begin));
        }
    }
    calls.push(closing_call(class, 65, 9_990 + 550 * pairs as i64));
    calls
}

/// The largest book of a class: 777 lines, all taken, 64 sections, closed. Lines that no further pair of stations fits drop an empty run.
pub fn largest_book(class: Class) -> Vec<u8> {
    let opened = opening(class).len();
    let runs = if class.goes_both_ways() { 2 } else { 1 };
    let mut calls = sixty_four_sections(class, (776 - opened - 64 * runs - 1) / (2 * runs));
    while calls.len() < 776 {
        calls.insert(opened, Call::DropRun);
    }
    whole(text_of(&calls))
}

/// 64 sections of two stations (out and back four), then ends of runs that are refused with 29 as far as 777 lines go, then the end of the line.
pub fn refused_late(class: Class) -> Vec<u8> {
    let mut calls = sixty_four_sections(class, 64);
    let end = calls.pop().expect("the end of the line");
    calls.resize(775, Call::EndRun(7));
    calls.push(end);
    whole(text_of(&calls))
}

/// A station in each line, on a book that is never opened: each is refused with 21.
pub fn refused_stations() -> Vec<u8> {
    whole(after_heading(&filled("STA    4787    1571    1197    1384    6171    4687     739     363     551    5239")))
}

/// Blank lines, each refused with 1.
pub fn blank_lines() -> Vec<u8> {
    whole(after_heading(&filled("")))
}

/// The same line 776 times.
pub fn after_heading(line: &[u8]) -> Vec<u8> {
    [heading(), line.repeat(776)].concat()
}

fn whole(text: Vec<u8>) -> Vec<u8> {
    assert_eq!(text.len(), LONGEST_TEXT);
    text
}
