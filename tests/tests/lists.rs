//! Lists of entries run by the proved book, compared with the other implementation's plain reading of their calls.
use std::collections::BTreeMap;

use level_tests::adjust::closing_keeps_promises;
use level_tests::closing::{Closing, Point};
use level_tests::constants::Staffs;
use level_tests::figures::{figures_of, read, FIGURES};
use level_tests::generate::book;
use level_tests::mutate::any_call;
use level_tests::opening::opening;
use level_tests::plain::{Call, Opened, Reading};
use level_tests::random::Random;
use level_tests::rules::Class;
use level_tests::write::numbers_of;
use levelbook::PrintUnit;

/// An entry that begins with these numbers; the others are anything.
fn entry(random: &mut Random, first: &[i64]) -> [i64; 11] {
    let mut numbers = [0; 11].map(|_: i64| random.next() as i64);
    numbers[..first.len()].copy_from_slice(first);
    numbers
}

/// The print unit as the package has it; it has no other.
fn unit(prints: i64) -> Option<PrintUnit> {
    [PrintUnit::Millimetre, PrintUnit::Tenth].into_iter().find(|&one| one as i64 == prints)
}

/// The call as the package has it; an opening with another print unit is none.
fn typed(call: &Call) -> Option<levelbook::Call> {
    let staff = |constant, [upper, lower, black, red]: [i64; 4]| levelbook::Staff { constant, upper, lower, black, red };
    Some(match *call {
        Call::Open(Opened { order, instrument, start, height, prints }) => levelbook::Call::Open { order, instrument, start, height, prints: unit(prints)? },
        Call::Station { back_k, fore_k, readings } => levelbook::Call::Station { back: staff(back_k, readings[0]), fore: staff(fore_k, readings[1]) },
        Call::EndRun(number) => levelbook::Call::EndRun { number },
        Call::DropRun => levelbook::Call::DropRun,
        Call::DropSection => levelbook::Call::DropSection,
        Call::CloseLine { number, height } => levelbook::Call::CloseLine { number, height },
        Call::OpenSpur(Opened { order, instrument, start, height, prints }) => levelbook::Call::OpenSpur { order, instrument, start, height, prints: unit(prints)? },
        Call::CloseSpur(number) => levelbook::Call::CloseSpur { number },
        Call::Collimation([a1, b1, a2, b2, d1, d2]) => levelbook::Call::Collimation { readings: [a1, b1, a2, b2], distances: [d1, d2] },
        Call::Constants([staff_4687, staff_4787]) => levelbook::Call::Constants { staff_4687, staff_4787 },
        Call::LiftSection => levelbook::Call::LiftSection,
    })
}

/// What a list of calls as types gives, where it has them: each call's number, and what the plain reading is left with.
fn compare_typed(calls: &[Call], numbers: &[u8], reading: &Reading, closed: &Option<Closing>) {
    let Some(list) = calls.iter().map(typed).collect::<Option<Vec<_>>>() else { return };
    let outcome = levelbook::run_calls(&list);
    let point = |one: &Point| levelbook::Point { number: one.number, distance: one.distance, correction: one.correction, height: one.height };
    let closing = closed.as_ref().map(|one| levelbook::Closing {
        closure: one.w,
        length: one.l,
        sections: one.n,
        accidental: one.t,
        verdict: one.verdict,
        points: one.points.iter().map(point).collect(),
    });
    let figures = figures_of(reading, closed);
    let run = levelbook::Run { stations: figures[5], twice_height: figures[6], sights: figures[7], difference: figures[8] };
    assert_eq!(outcome, levelbook::Outcome { numbers: numbers.to_vec(), sections: figures[9], run, closing }, "{calls:?}");
}

/// A kind that is no call's.
fn no_kind(random: &mut Random) -> i64 {
    *random.pick(&[0, 12, 13, -1, -2, 257, 265, 266, 267, (1 << 32) + 1, (1 << 62) + 2, i64::MAX, i64::MIN, i64::MIN + 3])
}

/// A list over another's first places, as far as it has places.
fn over<T: Copy>(list: &[T], old: &[T]) -> Vec<T> {
    let mut written = old.to_vec();
    let places = list.len().min(old.len());
    written[..places].copy_from_slice(&list[..places]);
    written
}

/// In the counts, the closing of a line and of a spur, of one with measured constants, of one in tenths, and of one with both.
const CLOSED: u8 = 100;
const SPUR_CLOSED: u8 = 101;
const MEASURED_CLOSED: u8 = 102;
const TENTHS_CLOSED: u8 = 104;
const MEASURED_TENTHS_CLOSED: u8 = 105;

/// In the counts, a section that is lifted.
const LIFTED: u8 = 103;

/// What a closing gives keeps its promises, whose exact fractions are computed from the standing list.
fn check_closing(reading: &Reading, closing: &Closing, counts: &mut BTreeMap<u8, u64>) {
    let opened = reading.opened.expect("a closed line was opened");
    let kept = closing_keeps_promises(reading.units(opened), opened.height, reading.end_height, &reading.sums_of_sections(), closing);
    assert_eq!(kept, Ok(()), "{reading:?}");
    let which = if reading.class == Some(Class::Spur) { SPUR_CLOSED } else { CLOSED };
    *counts.entry(which).or_default() += 1;
    let (measured, tenths) = (reading.staffs != Staffs::Nominal, opened.prints == 10);
    for (which, one) in [(MEASURED_CLOSED, measured), (TENTHS_CLOSED, tenths), (MEASURED_TENTHS_CLOSED, measured && tenths)] {
        *counts.entry(which).or_default() += u64::from(one);
    }
}

/// Runs a list of calls both ways, with entries of no kind between them and a rest behind them, and counts the calls' numbers, these 1s and the closings.
fn compare(random: &mut Random, calls: &[Call], counts: &mut BTreeMap<u8, u64>) {
    let (answered, reading, closed) = read(calls);
    if let Some(closing) = &closed {
        check_closing(&reading, closing, counts);
    }
    let (mut list, mut expected) = (Vec::new(), Vec::new());
    for (call, &number) in calls.iter().zip(&answered) {
        if random.chance(1, 60) {
            let none = no_kind(random);
            list.extend(entry(random, &[none]));
            expected.push(1);
        }
        list.extend(entry(random, &numbers_of(call)));
        expected.push(number);
    }
    let lifted = calls.iter().zip(&answered).filter(|&(call, &number)| *call == Call::LiftSection && number == 0).count();
    *counts.entry(LIFTED).or_default() += lifted as u64;
    compare_typed(calls, &answered, &reading, &closed);
    let rest = random.below(11);
    list.extend((0..rest).map(|_| random.between(0, 9)));
    if rest > 0 {
        expected.push(1);
    }
    expected.iter().for_each(|&number| *counts.entry(number).or_default() += 1);
    let places = *random.pick(&[expected.len(), expected.len(), expected.len() + 3, expected.len() / 2]);
    let answers = vec![99u8; places];
    let room = vec![-7i64; *random.pick(&[FIGURES, FIGURES, FIGURES + 5, 10, 13])];
    let (mut given, mut figures) = (answers.clone(), room.clone());
    assert_eq!(levelbook::run(&list, &mut given, &mut figures), expected.len(), "{calls:?}");
    assert_eq!(given, over(&expected, &answers), "{calls:?}");
    assert_eq!(figures, over(&figures_of(&reading, &closed), &room), "{calls:?}");
}

#[test]
fn hundred_thousand_lists() {
    let mut random = Random::new(20_261_116);
    let mut counts = BTreeMap::new();
    for _ in 0..100_000 {
        let mut calls = book(&mut random);
        if random.chance(1, 3) {
            calls.truncate(random.below(calls.len() as u64 + 1) as usize);
        }
        compare(&mut random, &calls, &mut counts);
    }
    println!("{counts:?}");
    for number in [1].into_iter().chain(3..=8).chain(21..=36) {
        assert!(counts.get(&number).is_some_and(|&count| count >= 20), "too few of {number}: {counts:?}");
    }
    assert_eq!(counts.get(&20), None);
    for number in (41..=46).chain([53, 57, LIFTED]) {
        assert!(counts[&number] >= 5_000, "too few of {number}: {counts:?}");
    }
    let closings = [(CLOSED, 20_000), (SPUR_CLOSED, 10_000), (MEASURED_CLOSED, 10_000), (TENTHS_CLOSED, 20_000), (MEASURED_TENTHS_CLOSED, 5_000)];
    assert!(closings.iter().all(|(which, fewest)| counts[which] >= *fewest), "too few closings: {counts:?}");
}

/// Calls whose arguments are anything, in any order, one in two lists after an opening.
#[test]
fn lists_of_any_calls() {
    let mut random = Random::new(16_112_026);
    let mut counts = BTreeMap::new();
    for _ in 0..20_000 {
        let mut calls = if random.chance(1, 2) { opening(*random.pick(&Class::ALL)) } else { Vec::new() };
        calls.extend((0..random.below(30)).map(|_| any_call(&mut random)));
        compare(&mut random, &calls, &mut counts);
    }
    assert_eq!(counts.get(&20), None);
}

/// Fewer numbers than an entry has are one entry all the same, whose number is 1.
#[test]
fn a_rest_alone() {
    for length in 0..11 {
        let (mut numbers, mut figures) = ([99], [5; FIGURES]);
        assert_eq!(levelbook::run(&vec![1; length], &mut [], &mut []), length.min(1));
        assert_eq!(levelbook::run(&vec![1; length], &mut numbers, &mut figures), length.min(1));
        assert_eq!((numbers, figures), (if length == 0 { [99] } else { [1] }, [0; FIGURES]));
    }
}
