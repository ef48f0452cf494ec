//! Lists of calls that are worth comparing: lines of both orders and spurs, with both
//! instruments, one in three with measured constants, some with sections lifted and levelled anew, that reach the limits of documents 01 and 02, and
//! changed lists.

use crate::mutate::mutate;
use crate::caller::{Caller, Style};
use crate::plain::Call;
use crate::random::Random;
use crate::rules::{limits, longest_line, Class, SECTIONS_OF_A_LINE, STATIONS_OF_A_RUN};

/// What a line is to show.
#[derive(Clone, Copy, Debug, PartialEq, Eq)]
pub enum Kind {
    /// One to six sections.
    Usual,
    /// A loop of two to six sections; a spur that tries to be one.
    Loop,
    /// About 20 sections out and back with T about its limit.
    Verdict,
    /// About as many sections as a line may have, and some above; one in two with the shortest
    /// sights.
    Many,
    /// A length at or beyond its limit, for a spur up to 500 km, runs of 200 stations.
    Long,
    /// Heights below -9,999,999 mm (some thousand calls).
    Deep,
    /// A W whose square times 625 passes 64 bits, a spur up or down as far (some ten
    /// thousand calls).
    Steep,
}

/// A list of calls: a line of any kind, one in three with changes.
pub fn book(random: &mut Random) -> Vec<Call> {
    let kind = match random.below(4_000) {
        0 => Kind::Steep,
        1..=4 => Kind::Deep,
        5..=80 => Kind::Long,
        81..=240 => Kind::Many,
        241..=360 => Kind::Verdict,
        361..=1_160 => Kind::Loop,
        _ => Kind::Usual,
    };
    let mut calls = line(random, kind);
    if random.chance(1, 3) {
        mutate(random, &mut calls, 6);
    }
    calls
}

/// A list of calls that fits a text book of at most this many calls.
pub fn short_book(random: &mut Random, most: usize) -> Vec<Call> {
    loop {
        let calls = book(random);
        if calls.len() <= most {
            return calls;
        }
    }
}

/// A line of one kind, not changed.
pub fn line(random: &mut Random, kind: Kind) -> Vec<Call> {
    let style = style(random, kind);
    let mut caller = Caller::new(random, style);
    caller.set_out();
    match kind {
        Kind::Usual => usual_line(&mut caller, false),
        Kind::Loop => usual_line(&mut caller, true),
        Kind::Verdict => line_of_short_sections(&mut caller, 18, 25),
        Kind::Many => line_of_short_sections(&mut caller, SECTIONS_OF_A_LINE as i64 - 2, 67),
        Kind::Long => long_line(&mut caller),
        Kind::Deep => deep_line(&mut caller),
        Kind::Steep => steep_line(&mut caller),
    }
    caller.close();
    caller.afterwards();
    caller.calls
}

/// The shortest sight in dm: the middle thread is between the upper and the lower one. Where all have it, each t is
/// as large as it may be.
const SHORTEST_SIGHT: i64 = 2;

fn style(random: &mut Random, kind: Kind) -> Style {
    let class = *random.pick(match kind {
        Kind::Verdict | Kind::Steep => &[Class::Third, Class::Spur],
        Kind::Deep => &[Class::Fourth, Class::Spur],
        _ => &Class::ALL[..],
    });
    let instrument = *random.pick(&[3, 1]);
    let most = limits(class.order(), instrument).sight as i64;
    let sight = match (kind, random.below(4)) {
        (Kind::Long, _) => most - 10,
        (Kind::Deep | Kind::Steep, _) => 12,
        (Kind::Verdict, _) => random.between(60, 400),
        (Kind::Many, 0 | 1) => SHORTEST_SIGHT,
        (_, 0) => random.between(2, 20),
        (_, 1) => random.between(most - 40, most),
        _ => random.between(20, 400),
    };
    let trouble = match kind {
        Kind::Deep | Kind::Steep => 0,
        Kind::Long => *random.pick(&[0, 200, 1_000]),
        Kind::Many | Kind::Verdict => *random.pick(&[0, 40, 200]),
        _ => *random.pick(&[0, 0, 4, 8, 8, 16, 16, 40]),
    };
    let lifts = match kind {
        Kind::Deep | Kind::Steep => 0,
        Kind::Many | Kind::Verdict => *random.pick(&[0, 0, 20, 100]),
        _ => *random.pick(&[0, 0, 0, 3, 10]),
    };
    Style {
        class,
        instrument,
        sight,
        relief: *random.pick(&[0, 10, 100, 400, 1_500]),
        equal: kind != Kind::Verdict && (sight == SHORTEST_SIGHT || random.chance(1, 4)),
        verdict: kind == Kind::Verdict,
        measured: random.chance(1, 3),
        lifts,
        trouble,
    }
}

/// An even count of stations, mostly small; the same one throughout a line of
/// equal sights.
fn stations(caller: &mut Caller, usual: i64) -> usize {
    let count = if caller.style.equal {
        usual
    } else if caller.random.chance(1, 40) {
        caller.random.between(5, 20)
    } else {
        caller.random.between(1, usual)
    };
    2 * count as usize
}

/// One to six sections; a loop comes back to the start number, which is refused on a spur.
fn usual_line(caller: &mut Caller, is_loop: bool) {
    let sections = caller.random.between(if is_loop { 2 } else { 1 }, 6);
    let usual = caller.random.between(1, 4);
    for k in 1..=sections {
        let back = is_loop && k == sections;
        let shuts = back && caller.class().may_be_loop();
        let mut count = stations(caller, usual);
        let mut number = caller.new_number();
        if back && !caller.reading.sections.is_empty() {
            number = caller.opened().start;
            count = caller.stations_to_shut(count);
        }
        if !caller.lasting_section(number, count, shuts) && caller.random.chance(1, 2) {
            let again = caller.new_number();
            caller.section(again, count, false);
        }
    }
    if is_loop && caller.mistaken() {
        let beyond = caller.new_number();
        caller.section(beyond, 2, false);
    }
}

/// Many sections of two stations, one in six lines a loop.
fn line_of_short_sections(caller: &mut Caller, fewest: i64, most: i64) {
    let sections = caller.random.between(fewest, most);
    let is_loop = caller.random.chance(1, 6) && caller.class().may_be_loop();
    for k in 1..=sections {
        let last = k == sections.min(SECTIONS_OF_A_LINE as i64);
        if is_loop && last {
            let start = caller.opened().start;
            let count = caller.stations_to_shut(2);
            caller.lasting_section(start, count, true);
        } else {
            let known = k > SECTIONS_OF_A_LINE as i64 && caller.random.chance(1, 2);
            let number = if known { caller.doubtful_number() } else { caller.new_number() };
            caller.lasting_section(number, 2, false);
        }
    }
}

/// Sections of 200 stations up to a length at, inside or beyond the limit; a spur to a
/// line's limits and, as it has none, far beyond.
fn long_line(caller: &mut Caller) {
    let is_loop = caller.random.chance(1, 2) && caller.class().may_be_loop();
    let longest = match longest_line(caller.class(), is_loop) {
        Some(longest) => longest as i64,
        None => 20_000 * *caller.random.pick(&[80, 80, 100, 150, 200, 500]),
    };
    let off = *caller.random.pick(&[0, 0, 0, 2, 2, 1, -1, -2, 40_000, -40_000]);
    caller.style.relief = caller.style.relief.min(10);
    let one_station = 4 * caller.table().sight;
    for _ in 0..16 {
        let (_, done) = caller.line_sums();
        let rest = longest + off - done;
        let fits = rest <= one_station * STATIONS_OF_A_RUN as i64;
        let needed = (rest.max(1) + one_station - 1) / one_station;
        let count = if fits { 2 * (needed as usize).div_ceil(2) } else { STATIONS_OF_A_RUN };
        let full = done + one_station * (STATIONS_OF_A_RUN as i64) * 97 / 100;
        caller.length = Some(if fits { longest + off } else { full });
        let shuts = fits && is_loop && done > 0;
        let number = if shuts { caller.opened().start } else { caller.new_number() };
        if caller.lasting_section(number, count, shuts) && fits {
            break;
        }
    }
    caller.length = None;
}

/// Down below -9,999,999 mm, a line up again to an end height in range.
fn deep_line(caller: &mut Caller) {
    let sections = caller.random.between(18, 31);
    let up_again = if caller.class() == Class::Spur { 0 } else { sections };
    let steep = 5_900 * STATIONS_OF_A_RUN as i64;
    for k in 0..sections + up_again {
        caller.climb = Some(if k < sections { -steep } else { steep });
        let number = caller.new_number();
        caller.section(number, STATIONS_OF_A_RUN, false);
    }
    caller.climb = None;
}

/// Up (or down) all the way, with closings that miss by kilometres.
fn steep_line(caller: &mut Caller) {
    let turn = caller.random.sign(1);
    caller.climb = Some(turn * 5_900 * STATIONS_OF_A_RUN as i64);
    for _ in 0..SECTIONS_OF_A_LINE {
        let number = caller.new_number();
        caller.section(number, STATIONS_OF_A_RUN, false);
    }
    caller.climb = None;
    let number = caller.reading.section_begin(caller.opened().start);
    for height in [-999_999, 8_999_999] {
        caller.put(Call::CloseLine { number, height });
    }
}
