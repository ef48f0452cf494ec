//! Finished sections taken out of the line (document 02, W-210): lists of calls and a text, each run by the proved book and by the other implementation. What is lifted
//! is gone as if it had not been levelled, but for the answers that came before.

use level_tests::both::{after, figures, report, run, words};
use level_tests::fixed::{run_of, section, station, FIRST, SECOND};
use level_tests::generate::book;
use level_tests::opening::{closing_call, measured_opening, opening, opening_call, usual, MEASURED, TABLE_B7};
use level_tests::plain::{Answer, Call, Reading};
use level_tests::random::Random;
use level_tests::rules::Class;
use level_tests::write::{filled, text_of};

const LFT: Call = Call::LiftSection;
const KON: Call = Call::Constants(MEASURED);
const ANG: Call = Call::Collimation(TABLE_B7);

fn end(number: i64) -> Call {
    Call::EndRun(number)
}

/// The section from one number to another, with these twice-heights of the first station out and, where it goes both ways, back.
fn leg(class: Class, from: i64, to: i64, [out, back]: [i64; 2]) -> Vec<Call> {
    if class.goes_both_ways() {
        section(from, to, out, back)
    } else {
        [run_of(FIRST, 625, 0, &[out, 0]), vec![end(to)]].concat()
    }
}

/// So many sections from 1 on.
fn legs(class: Class, n: i64) -> Vec<Call> {
    (1..=n).flat_map(|k| leg(class, k, k + 1, [0, 0])).collect()
}

fn open(class: Class, n: i64) -> Vec<Call> {
    [opening(class), legs(class, n)].concat()
}

/// 21 on a fresh and on a closed book, 53 where no section stands or another is begun; elsewhere the last section goes, and then the one before it.
#[test]
fn where_a_section_is_lifted() {
    assert_eq!(after(&[], &[LFT]), [21]);
    let out = run_of(FIRST, 625, 0, &[0, 0]);
    for class in Class::ALL {
        assert_eq!(after(&[opening_call(class, usual(class.order()))], &[LFT]), [53], "{class:?}");
        assert_eq!(after(&open(class, 0), &[LFT, out[0].clone(), LFT]), [53, 0, 53], "{class:?}");
        assert_eq!(after(&open(class, 2), &[LFT, LFT, LFT]), [0, 0, 53], "{class:?}");
        let begun = [out[0].clone(), LFT, Call::DropRun, LFT, out[0].clone(), out[1].clone(), LFT, Call::DropSection, LFT, LFT];
        assert_eq!(after(&open(class, 2), &begun), [0, 53, 0, 0, 0, 0, 53, 0, 0, 53], "{class:?}");
        let closed = [open(class, 2), vec![closing_call(class, 3, 10_000)]].concat();
        assert_eq!(after(&closed, &[LFT, LFT]), [21, 21], "{class:?}");
        // nothing of a lift that is refused is kept
        assert_eq!(figures(&[open(class, 1), out.clone()].concat()), run(&[open(class, 1), out.clone(), vec![LFT]].concat()).1, "{class:?}");
    }
    for class in [Class::Third, Class::Spur] {
        let back = run_of(SECOND, 625, 0, &[0, 0]);
        let calls = [out.clone(), vec![end(3), LFT, back[0].clone(), LFT, Call::DropRun, LFT, Call::DropSection, LFT, LFT]].concat();
        assert_eq!(after(&open(class, 1), &calls), [0, 0, 0, 53, 0, 53, 0, 53, 0, 0, 53], "{class:?}");
    }
}

/// Up to 64 sections and back to none; closed wherever it stands, the line is the one that was never longer. With 64 an outward run ends with 31, with one lifted not.
#[test]
fn from_none_to_64_and_back() {
    for class in Class::ALL {
        let full = open(class, 64);
        for n in 0..=64 {
            let lifted = [full.clone(), vec![LFT; 64 - n as usize]].concat();
            let close = vec![closing_call(class, n + 1, 10_000)];
            if n == 0 {
                assert_eq!(after(&lifted, &[close, vec![LFT]].concat()), [33, 53], "{class:?}");
            } else {
                assert_eq!(figures(&[lifted, close.clone()].concat()), figures(&[open(class, n), close].concat()), "{class:?} {n}");
            }
        }
        let out = [run_of(FIRST, 625, 0, &[0, 0]), vec![end(99)]].concat();
        assert_eq!(after(&full, &[out.clone(), vec![Call::DropRun, LFT], out].concat()), [0, 0, 31, 0, 0, 0, 0, 0], "{class:?}");
        let again = [full, vec![LFT; 64], legs(class, 64), vec![closing_call(class, 65, 10_000)]].concat();
        assert_eq!(figures(&again), figures(&[open(class, 64), vec![closing_call(class, 65, 10_000)]].concat()), "{class:?}");
    }
}

/// A number that is lifted is free for any later section; one that stands is not.
#[test]
fn numbers_are_free_again() {
    for class in Class::ALL {
        let begun = [open(class, 3), vec![LFT, LFT], run_of(FIRST, 625, 0, &[0, 0])].concat();
        assert_eq!([2, 3, 4, 5].map(|number| after(&begun, &[end(number)])[0]), [30, 0, 0, 0], "{class:?}");
        let calls = [open(class, 3), vec![LFT, LFT], leg(class, 2, 4, [0, 0]), leg(class, 4, 3, [0, 0]), vec![closing_call(class, 3, 10_000)]].concat();
        let points = figures(&calls)[10..].chunks(4).map(|point| point[0]).take(5).collect::<Vec<_>>();
        assert_eq!(points, [1, 2, 4, 3, 0], "{class:?}");
        // of a section that is lifted a closing knows nothing
        let closings = [4, 3, 2].map(|number| closing_call(class, number, 10_000));
        assert_eq!(after(&[open(class, 3), vec![LFT, LFT]].concat(), &closings), [34, 34, 0], "{class:?}");
    }
}

/// On a shut loop a lift is taken, and the loop is open: stations and ends of runs are taken, and it may be shut once more. The start number is allowed only while a
/// section stands.
#[test]
fn loops() {
    for class in [Class::Third, Class::Fourth] {
        let shut = [open(class, 2), leg(class, 3, 1, [0, 0])].concat();
        let first = station(FIRST, [625, 625], 0);
        assert_eq!(after(&shut, &[first.clone(), end(4), LFT, first.clone(), end(4), Call::DropRun]), [21, 21, 0, 0, 29, 0], "{class:?}");
        let on = |number| if number == 3 { vec![] } else { leg(class, 3, number, [0, 0]) };
        for (number, height) in [(3, 10_001), (1, 10_000), (4, 10_001)] {
            let (behind, close) = (on(number), closing_call(class, number, height));
            let lifted = [&shut[..], &[LFT], &behind, &[close.clone()]].concat();
            assert_eq!(figures(&lifted), figures(&[open(class, 2), behind, vec![close]].concat()), "{class:?}");
        }
        // a loop's end height is its start height only while it is shut
        assert_eq!(after(&shut, &[closing_call(class, 1, 10_001), LFT, closing_call(class, 1, 10_000), closing_call(class, 3, 10_001)]), [34, 0, 34, 0], "{class:?}");
        let none = [shut, vec![LFT; 3], run_of(FIRST, 625, 0, &[0, 0])].concat();
        assert_eq!(after(&none, &[end(1), end(2)]), [30, 0], "{class:?}");
    }
}

/// Shut and opened a hundred times, by another last section each time, and shut at last.
#[test]
fn a_loop_shut_and_opened() {
    for class in [Class::Third, Class::Fourth] {
        let turns = (0..100).flat_map(|k| [leg(class, 3, 1, [k % 7, -(k % 5)]), vec![LFT]].concat());
        let last = [leg(class, 3, 1, [2, 0]), vec![closing_call(class, 1, 10_000)]].concat();
        let calls: Vec<Call> = open(class, 2).into_iter().chain(turns).chain(last.clone()).collect();
        assert_eq!(figures(&calls), figures(&[open(class, 2), last].concat()), "{class:?}");
    }
}

/// The test of the level and the constants stay in force, also where no section is left; a lift is a taken call, so that KON has lost its place.
#[test]
fn what_stays_in_force() {
    for class in Class::ALL {
        let first = station(FIRST, [625, 625], 0);
        let lifted = [open(class, 1), vec![LFT]].concat();
        assert_eq!(after(&lifted, &[ANG, KON, first.clone(), KON]), [45, 43, 0, 43], "{class:?}");
        let measured = [measured_opening(class, [46_860, 47_875]), legs(class, 1), vec![LFT]].concat();
        assert_eq!(after(&measured, &[KON]), [43], "{class:?}");
        // 15 tenths less than nominal, the back staff being the staff 4,787
        assert_eq!(figures(&[measured, vec![first]].concat())[5..10], [1, -15, 1_250, 0, 0], "{class:?}");
    }
    // a lift that is refused is none of the calls that are taken
    let opened = [opening_call(Class::Fourth, usual(4)), LFT, KON, KON];
    assert_eq!(run(&opened).0, [0, 53, 0, 43]);
}

/// The section levelled anew is an outward run first, and begins with either staff.
#[test]
fn the_run_after_a_lift() {
    for class in Class::ALL {
        for first in [FIRST, SECOND] {
            let other = FIRST + SECOND - first;
            let [out, back] = [first, other].map(|k| run_of(k, 625, 0, &[0, 0]));
            let calls = [&[LFT][..], &out, &[end(3)]].concat();
            assert_eq!(after(&open(class, 2), &calls), [0; 4], "{class:?}");
            if class.goes_both_ways() {
                // the return ends where the lifted section began
                assert_eq!(after(&[open(class, 2), calls, back].concat(), &[end(3), end(1), end(2)]), [30, 30, 0], "{class:?}");
            }
        }
    }
}

/// Sections out and back with any D within the limit and any sights, so that each t has its own fraction; on a line of fourth order with any height.
fn any_leg(random: &mut Random, class: Class, from: i64, to: i64) -> Vec<Call> {
    let most = match class {
        Class::Third => 7,
        Class::Fourth => 3_000,
        Class::Spur => 12,
    };
    let [out, d] = [random.between(-3_000, 3_000), random.between(-most, most)];
    let [sight, other] = [0; 2].map(|_: i64| random.between(100, 700));
    let short = random.between(0, 9);
    let runs = if class.goes_both_ways() { vec![(FIRST, sight, out, to), (SECOND, other, d - out, from)] } else { vec![(FIRST, sight, d, to)] };
    runs.into_iter().flat_map(|(k, sight, twice, number)| [run_of(k, sight, short, &[twice, 0]), vec![end(number)]].concat()).collect()
}

/// The height of the last section's benchmark that leaves the least W; a spur has none.
fn end_height(calls: &[Call]) -> i64 {
    let mut reading = Reading::fresh();
    calls.iter().for_each(|call| assert_eq!(reading.apply(call), Answer::Taken));
    10_000 + reading.sums_of_sections().iter().map(|one| one.0).sum::<i64>().div_euclid(4)
}

/// Closed, a list is the line of the sections that stand, levelled alone: W, L, n, T, the verdict and the points. The figures.
fn closes_as(class: Class, calls: &[Call], standing: &[Vec<Call>]) -> Vec<i64> {
    let fresh = [opening(class), standing.concat()].concat();
    let close = closing_call(class, standing.len() as i64 + 1, end_height(&fresh));
    let [given, expected] = [calls, &fresh].map(|list| figures(&[list, &[close.clone()]].concat()));
    assert_eq!(given, expected, "{class:?} after {} calls", calls.len());
    given
}

/// Thousands of sections come and go, more and fewer by turns, and the line is closed now and then on the way. What stands is known here without any reading of the
/// list.
#[test]
fn sums_after_thousands_of_lifts() {
    let mut random = Random::new(210);
    for class in Class::ALL {
        let (mut calls, mut standing) = (opening(class), Vec::<Vec<Call>>::new());
        let (mut lifts, mut judged) = (0, 0);
        for step in 0..6_000 {
            let n = standing.len() as i64;
            let adds = if step / 150 % 2 == 0 { 3 } else { 1 };
            if n > 0 && (n == 64 || !random.chance(adds, 4)) {
                calls.push(LFT);
                standing.pop();
                lifts += 1;
            } else {
                let leg = any_leg(&mut random, class, n + 1, n + 2);
                calls.extend(leg.clone());
                standing.push(leg);
            }
            if step % 100 == 99 && !standing.is_empty() {
                let closed = closes_as(class, &calls, &standing);
                judged += u64::from(closed[4] > 0);
                assert_eq!(closed[3] > 0, class.goes_both_ways(), "{class:?}: T {}", closed[3]);
            }
        }
        assert!(lifts >= 2_500 && (judged >= 20) == class.goes_both_ways(), "{class:?}: {lifts} lifts, {judged} judged");
    }
}

/// The list without the sections that are lifted: of each the calls from its first station on, and the lift. And what is answered to the others, by the other
/// implementation.
fn struck_out(calls: &[Call]) -> (Vec<Call>, Vec<u8>, usize) {
    let (mut kept, mut reading) = (Vec::<(Call, u8)>::new(), Reading::fresh());
    let (mut begins, mut begin, mut lifts) = (Vec::new(), 0, 0);
    for call in calls {
        let none = reading.run.is_empty() && reading.waiting.is_none();
        let standing = reading.sections.len();
        let number = match reading.apply(call) {
            Answer::Refused(number) => number,
            _ => 0,
        };
        if matches!(call, Call::Station { .. }) && number == 0 && none {
            begin = kept.len();
        }
        if *call == LFT && number == 0 {
            kept.truncate(begins.pop().expect("a section"));
            lifts += 1;
            continue;
        }
        kept.push((call.clone(), number));
        if reading.sections.len() > standing {
            begins.push(begin);
        }
    }
    let (kept, numbers) = kept.into_iter().unzip();
    (kept, numbers, lifts)
}

/// Random lists without what is lifted answer the same to all else, and leave the same figures.
#[test]
fn what_is_lifted_is_struck_out() {
    let mut random = Random::new(2_100);
    let (mut lifted, mut most, mut closed) = (0, 0, 0);
    for _ in 0..20_000 {
        let calls = book(&mut random);
        let (kept, numbers, lifts) = struck_out(&calls);
        if lifts == 0 {
            continue;
        }
        let given = run(&calls).1;
        assert_eq!(run(&kept), (numbers, given.clone()), "{calls:?}");
        lifted += 1;
        most = most.max(lifts);
        closed += u64::from(given[2] > 0);
    }
    println!("{lifted} lists with lifts, {closed} closed, {most} lifts in one");
    assert!(lifted >= 2_000 && closed >= 1_000 && most >= 64, "{lifted} {closed} {most}");
}

/// In a text: 1 for a field, 21 before the line is opened and after it is closed.
#[test]
fn in_a_text() {
    let book = text_of(&opening(Class::Fourth));
    let leg = text_of(&leg(Class::Fourth, 1, 2, [0, 0]))[84..].to_vec();
    let text = [
        book[..84].to_vec(),
        filled("LFT"),
        book[84..].to_vec(),
        filled("LFT"),
        leg.clone(),
        filled("LFT       1"),
        filled("LFT"),
        filled("LFT"),
        filled("END       2   10000"),
        leg,
        filled("END       2   10000"),
        filled("LFT"),
    ];
    let refusals = [(2, 21), (5, 53), (9, 1), (11, 53), (12, 33), (17, 21)].map(|(line, number)| filled(&format!("REF{line:8}{number:8}")));
    let closing = ["CLO       0    5000       1       0       0", "PNT       1       0       0   10000", "PNT       2    5000       0   10000"].map(filled);
    let expected = [filled("REDUCED LEVELS"), refusals.concat(), closing.concat()].concat();
    assert_eq!(report(&text.concat()).map(|one| words(&one)), Ok(words(&expected)));
}
