//! Worked lines with measured staff constants (document 02, W-203): lists of calls and texts, each run by the proved book and by the other implementation.
//!
//! The constants here are 46,870 + a of the staff 4,687 and 47,870 + b of the staff 4,787, in tenths of a mm, so that e is ten times the nominal one and a or b
//! more. Over two stations with the staffs in turn a and b cancel: of an ended run every figure is ten times the nominal one, whatever a and b are.

use level_tests::both::{after, figures, report, run, words};
use level_tests::constants::{Staffs, RANGES};
use level_tests::fixed::{faces, run_of, section, station, FIRST, SECOND};
use level_tests::generate::book;
use level_tests::opening::{closing_call, measured_opening, opening, opening_call, usual, MEASURED, TABLE_B7};
use level_tests::plain::{Answer, Call, Reading};
use level_tests::random::Random;
use level_tests::rules::{limits, Class};
use level_tests::station::{Station, BACK, FORE};
use level_tests::write::{filled, line, line_of, text_of};

const KON: Call = Call::Constants(MEASURED);
const ANG: Call = Call::Collimation(TABLE_B7);

/// A book of a class that is open, and nothing else.
fn open(class: Class) -> Vec<Call> {
    vec![opening_call(class, usual(class.order()))]
}

/// A line with the constants of a and b, whose level was tested.
fn with(class: Class, a: i64, b: i64) -> Vec<Call> {
    measured_opening(class, [46_870 + a, 47_870 + b])
}

/// Case A's two stations of the first section and of the second.
fn case_a() -> [Vec<Call>; 2] {
    let staffs = |back_k, back, fore| Call::Station { back_k, fore_k: FIRST + SECOND - back_k, readings: [back, fore] };
    [
        vec![staffs(FIRST, [1_571, 1_197, 1_384, 6_171], [739, 363, 551, 5_239]), staffs(SECOND, [1_965, 1_700, 1_832, 6_519], [2_141, 1_874, 2_007, 6_793])],
        vec![staffs(FIRST, [1_300, 1_100, 1_200, 5_987], [1_000, 800, 900, 5_587]), staffs(SECOND, [1_500, 1_300, 1_400, 6_087], [1_250, 1_050, 1_150, 5_937])],
    ]
}

fn end(number: i64) -> Call {
    Call::EndRun(number)
}

/// Each constant at the ends of its range, one beyond, far beyond, in mm, and the two exchanged.
#[test]
fn ranges() {
    assert_eq!(RANGES, [(46_770, 46_970), (47_770, 47_970)]);
    let answer = |constants| after(&open(Class::Fourth), &[Call::Constants(constants)])[0];
    for constants in [[46_770, 47_770], [46_970, 47_970], [46_770, 47_970], [46_970, 47_770]] {
        assert_eq!(answer(constants), 0, "{constants:?}");
    }
    for wrong in [46_769, 46_971, 4_687, 47_870, 0, -46_870, i64::MIN, i64::MAX] {
        assert_eq!(answer([wrong, 47_870]), 42, "{wrong}");
    }
    for wrong in [47_769, 47_971, 4_787, 46_870, 0, -47_870, i64::MIN, i64::MAX] {
        assert_eq!(answer([46_870, wrong]), 42, "{wrong}");
    }
    assert_eq!(answer([47_870, 46_870]), 42);
}

/// Books on which KON has no place, whatever it is: fresh, closed, and open with a call taken, though it changed nothing.
fn no_places(class: Class) -> Vec<Vec<Call>> {
    let out = run_of(FIRST, 625, 0, &[0, 0]);
    let whole = if class.goes_both_ways() { section(1, 2, 0, 0) } else { [out.clone(), vec![end(2)]].concat() };
    let closed = |book: Vec<Call>| [book, whole.clone(), vec![closing_call(class, 2, 10_000)]].concat();
    vec![
        vec![],
        closed(opening(class)),
        closed(measured_opening(class, MEASURED)),
        [open(class), vec![KON]].concat(),
        [open(class), vec![ANG]].concat(),
        measured_opening(class, MEASURED),
        [open(class), vec![Call::DropRun]].concat(),
        [open(class), vec![Call::DropSection]].concat(),
        [&opening(class), &out[..1]].concat(),
        [&opening(class), &out[..1], &[Call::DropRun]].concat(),
        [opening(class), out, vec![end(2)]].concat(),
        [opening(class), whole.clone()].concat(),
        [opening(class), whole.clone(), vec![Call::DropSection]].concat(),
    ]
}

/// 43 in every place but its own, and never 21; the range comes before it.
#[test]
fn other_places() {
    let [below, above] = [[46_769, 47_870], [46_870, 47_971]].map(Call::Constants);
    for class in Class::ALL {
        for book in no_places(class) {
            assert_eq!(after(&book, &[KON, below.clone(), above.clone(), KON]), [43, 42, 42, 43], "{book:?}");
        }
    }
    let shut = [opening(Class::Third), section(1, 2, 0, 0), section(2, 1, 0, 0)].concat();
    assert_eq!(after(&shut, &[KON, below, closing_call(Class::Third, 1, 10_000), KON]), [43, 42, 0, 43]);
}

/// A refused call takes nothing of the place: an opening, an end of a run, both closings, a test above 20″ or out of range, a station, constants out of range.
#[test]
fn after_refused_calls() {
    let level = station(FIRST, [500, 500], 0);
    for class in Class::ALL {
        let other = if class == Class::Spur { closing_call(Class::Fourth, 2, 10_000) } else { Call::CloseSpur(2) };
        let refused = [
            (Call::Open(usual(4)), 21),
            (Call::OpenSpur(usual(4)), 21),
            (Call::Open(usual(5)), 3),
            (end(2), 29),
            (end(0), 4),
            (closing_call(class, 2, 10_000), 33),
            (other, 41),
            (Call::Collimation([6_000, 6_000, 6_300, 6_000, 6_000, 45_000]), 45),
            (Call::Collimation([0; 6]), 44),
            (level.clone(), 46),
            (Call::Constants([46_971, 47_870]), 42),
        ];
        for (call, number) in &refused {
            assert_eq!(after(&open(class), &[call.clone(), KON, KON]), [*number, 0, 43], "{call:?}");
        }
        let (calls, numbers): (Vec<Call>, Vec<u8>) = refused.iter().cloned().unzip();
        let calls = [calls, vec![KON, level.clone(), ANG, level.clone(), ANG, KON]].concat();
        assert_eq!(after(&open(class), &calls), [numbers, vec![0, 46, 0, 0, 45, 43]].concat(), "{class:?}");
    }
}

/// Constants that are refused change nothing: the book is left as without them.
#[test]
fn constants_that_are_refused() {
    let [first, second] = case_a();
    let late = [open(Class::Fourth), vec![ANG, KON, first[0].clone(), KON]].concat();
    assert_eq!(run(&late).1, figures(&[opening(Class::Fourth), first[..1].to_vec()].concat()));
    assert_eq!(run(&late).1[6], 1_665);
    let out = [open(Class::Fourth), vec![Call::Constants([46_769, 47_870]), ANG, first[0].clone()]].concat();
    assert_eq!(run(&out).1, figures(&[opening(Class::Fourth), first[..1].to_vec()].concat()));
    // the first ones stay
    let twice = [open(Class::Fourth), vec![KON, Call::Constants([46_770, 47_970]), ANG], second.clone()].concat();
    assert_eq!(run(&twice).1, figures(&[measured_opening(Class::Fourth, MEASURED), second].concat()));
}

/// What a level station with these nominal e, in mm, answers on a line with these constants: its back staff 4,787 has an e of 10 × the first + b tenths, its
/// fore staff 4,687 one of 10 × the second + a.
fn judged(class: Class, [a, b]: [i64; 2], [back_e, fore_e]: [i64; 2]) -> u8 {
    after(&with(class, a, b), &[faces(back_e, fore_e)])[0]
}

/// At fourth order 30 tenths are taken and 31 refused, at third order 20 and 21, of either staff and either sign.
#[test]
fn e_in_tenths() {
    for (class, most) in [(Class::Fourth, 3), (Class::Spur, 3), (Class::Third, 2)] {
        for turn in [1, -1] {
            let e = turn * most;
            // of the back staff: 30, 31, 29; 40 less 10, 40 less 9
            let back = [[0, 0], [0, turn], [0, -turn]].map(|constants| judged(class, constants, [e, 0]));
            let next = [[0, -10 * turn], [0, -9 * turn]].map(|constants| judged(class, constants, [e + turn, 0]));
            assert_eq!((back, next), ([0, 27, 0], [0, 27]), "{class:?} {turn}");
            // of the fore staff
            let fore = [[0, 0], [turn, 0], [-turn, 0]].map(|constants| judged(class, constants, [0, e]));
            let next = [[-10 * turn, 0], [-9 * turn, 0]].map(|constants| judged(class, constants, [0, e + turn]));
            assert_eq!((fore, next), ([0, 27, 0], [0, 27]), "{class:?} {turn}");
        }
    }
}

/// Which constant is which staff's: a red face of the staff 4,787 that reads 4 mm too little has an e of 30 tenths where the constant is 1 mm less than nominal; with
/// the other's, which is 1 mm more, it would have 50. So too where it is the fore staff.
#[test]
fn the_constant_of_each_staff() {
    for (constants, answers) in [([10, -10], [0, 0, 27, 27]), ([-10, 10], [27, 27, 0, 0])] {
        let turned = |back_e: i64, fore_e: i64| {
            let staff = |k: i64, e: i64| [1_600, 1_400, 1_500, k + 1_500 - e];
            Call::Station { back_k: SECOND, fore_k: FIRST, readings: [staff(SECOND, back_e), staff(FIRST, fore_e)] }
        };
        let [a, b] = constants;
        let answer = |call: Call| after(&with(Class::Fourth, a, b), &[call])[0];
        assert_eq!([faces(4, 0), turned(0, 4), faces(0, 4), turned(4, 0)].map(answer), answers);
    }
}

/// The constants are those of every station of the line: of a run's first one and of later ones, in a return, after a section and after drops. The staff 4,687 has an e
/// of 20 tenths and a.
#[test]
fn every_station_of_the_line() {
    let staff = |k: i64, e: i64| [1_600, 1_400, 1_500, k + 1_500 - e];
    let wide = Call::Station { back_k: SECOND, fore_k: FIRST, readings: [staff(SECOND, 2), staff(FIRST, 0)] };
    let out = run_of(FIRST, 625, 0, &[0, 0]);
    for before in [
        vec![],
        out[..1].to_vec(),
        [&out[..], &out[..1]].concat(),
        [&out[..], &[end(2)]].concat(),
        section(1, 2, 0, 0),
        [&out[..1], &[Call::DropRun]].concat(),
        [&out[..1], &[Call::DropSection]].concat(),
        [&out[..], &[end(2), Call::DropSection]].concat(),
    ] {
        let answers = [0, 1, -1].map(|a| after(&[with(Class::Third, a, 0), before.clone()].concat(), &[wide.clone()])[0]);
        assert_eq!(answers, [0, 27, 0], "{before:?}");
        // no rise of the blacks, and an e of 19 tenths of the back staff alone; where the count is even a station before it has one of −1 of its fore staff
        let given = figures(&[with(Class::Third, -1, 0), before.clone(), vec![wide.clone()]].concat());
        assert_eq!(given[6], if given[5] % 2 == 1 { -19 } else { -20 }, "{before:?}");
    }
}

/// The faces' heights: 50 tenths at fourth order, 30 at third, on either side.
#[test]
fn faces_in_tenths() {
    let fourth = [
        ([0, 0], [3, -2], 0),    // 30 and −20
        ([-1, 0], [3, -2], 28),  // 30 and −21
        ([1, 0], [3, -2], 0),    // 30 and −19
        ([0, 10], [2, -2], 0),   // 20 + 10 and −20
        ([-1, 10], [2, -2], 28), // 20 + 10 and −21
        ([0, 1], [2, -3], 28),   // 21 and −30
        ([0, -1], [2, -3], 0),   // 19 and −30
    ];
    let third = [
        ([0, 0], [2, -1], 0),   // 20 and −10
        ([-1, 0], [2, -1], 28), // 20 and −11
        ([1, 0], [2, -1], 0),   // 20 and −9
        ([0, 1], [1, -2], 28),  // 11 and −20
        ([0, -1], [1, -2], 0),  // 9 and −20
    ];
    for (class, rows) in [(Class::Fourth, &fourth[..]), (Class::Spur, &fourth), (Class::Third, &third)] {
        for &([a, b], [back, fore], number) in rows {
            assert_eq!(judged(class, [a, b], [back, fore]), number, "{class:?} {a} {b} {back} {fore}");
            assert_eq!(judged(class, [-a, -b], [-back, -fore]), number, "{class:?} {a} {b} {back} {fore}");
        }
    }
}

/// Sights and d are in dm and have their old limits, and 27 comes before 28.
#[test]
fn what_has_no_tenths() {
    for (sights, number) in [([1_000, 1_000], 0), ([1_001, 1_000], 24), ([500, 470], 0), ([500, 469], 25)] {
        assert_eq!(after(&with(Class::Fourth, 3, -4), &[station(FIRST, sights, 0)]), [number], "{sights:?}");
    }
    let calls = [(FIRST, 475), (SECOND, 475), (FIRST, 475), (SECOND, 475), (FIRST, 499), (FIRST, 500)].map(|(k, fore)| station(k, [500, fore], 0));
    assert_eq!(after(&with(Class::Fourth, 3, -4), &calls), [0, 0, 0, 0, 26, 0]);
    assert_eq!(judged(Class::Fourth, [0, 1], [3, -3]), 27);
}

/// STA names the staffs by 4,687 and 4,787; the measured numbers are no names. Whose turn it is goes by the names.
#[test]
fn names_of_the_staffs() {
    let named = |back_k, fore_k| Call::Station { back_k, fore_k, readings: [[1_600, 1_400, 1_500, 6_287], [1_600, 1_400, 1_500, 6_187]] };
    // equal but for the nominal 100 mm
    for constants in [[46_870, 47_870], [46_890, 47_890], MEASURED] {
        let book = measured_opening(Class::Fourth, constants);
        let [k, other] = constants;
        assert_eq!(after(&book, &[named(other, k), named(k, other), named(FIRST, k), named(FIRST, FIRST)]), [7, 7, 7, 7]);
        let level = |k| station(k, [500, 500], 0);
        assert_eq!(after(&book, &[level(SECOND), level(SECOND), level(FIRST), level(FIRST), level(SECOND), end(2)]), [0, 23, 0, 23, 0, 29]);
    }
}

/// Case A's first station: (1384 − 551) + (6171 − 5239) = 1765 mm, so 17650 tenths less the constants' 47866 − 46873 = 993 are 16657, where nominal ones make 1665 and
/// exchanged ones 17650 + 993. Its second one: (1832 − 2007) + (6519 − 6793) = −449, so −4490 + 993 = −3497. Together 13160, ten times the nominal 1316.
#[test]
fn the_present_run() {
    let [first, second] = case_a();
    let book = measured_opening(Class::Fourth, MEASURED);
    assert_eq!(figures(&[&book, &first[..1]].concat())[5..10], [1, 16_657, 750, -2, 0]);
    assert_eq!(figures(&[&book, &first[1..]].concat())[5..10], [1, -3_497, 532, -2, 0]);
    assert_eq!(figures(&[&book, &first[..]].concat())[5..10], [2, 13_160, 1_282, -4, 0]);
    // the next section's first station: (1200 − 900) + (5987 − 5587) = 700, so 7000 − 993
    let longer = [&book, &first[..], &[end(2)], &second[..1]].concat();
    assert_eq!(figures(&longer)[5..10], [1, 6_007, 400, 0, 1]);
    assert_eq!(figures(&[longer, vec![Call::DropRun]].concat())[5..10], [0, 0, 0, 0, 1]);
}

/// After an odd count of stations the run has b − a less than ten times the nominal height where it began with the staff 4,787, and more where with the other one.
#[test]
fn odd_counts() {
    for (a, b) in [(3, -4), (1, 0), (0, 1), (-1, 0), (20, -30), (-30, 20), (25, 25)] {
        for (k, less) in [(FIRST, b - a), (SECOND, a - b)] {
            let stations = run_of(k, 500, 0, &[20, -30, 50]);
            let sums = [1, 2, 3].map(|n| figures(&[&with(Class::Fourth, a, b), &stations[..n]].concat())[6]);
            assert_eq!(sums, [200 - less, -100, 400 - less], "{a} {b} {k}");
        }
    }
}

/// Case A whole: W, Q and corrections are ten times those of 01, lengths and heights are the same.
#[test]
fn case_a_with_measured_constants() {
    let [first, second] = case_a();
    let calls = [measured_opening(Class::Fourth, MEASURED), first, vec![end(2)], second, vec![end(3), closing_call(Class::Fourth, 3, 11_206)]].concat();
    let given = figures(&calls);
    assert_eq!(given[..10], [80, 4_164, 2, 0, 0, 0, 0, 0, 0, 2]);
    assert_eq!(given[10..22], [1, 0, 0, 10_000, 2, 2_564, -40, 10_657, 3, 4_164, -40, 11_206]);
    let lines = [
        "REDUCED LEVELS",
        "CLO      80    4164       2       0       0",
        "PNT       1       0       0   10000",
        "PNT       2    2564     -40   10657",
        "PNT       3    4164     -40   11206",
    ];
    assert_eq!(report(&text_of(&calls)).map(|one| words(&one)), Ok(words(&lines.map(filled).concat())));
}

/// R 2564: 25 W² ≤ 800 × 2564 as long as W is at most 286. The end 10651 has W 280, 10650 W 320. At third order 625 W² ≤ 7200 × 2564, the limit is 171: 160 and 200.
#[test]
fn closures() {
    let [first, _] = case_a();
    let fourth = [measured_opening(Class::Fourth, MEASURED), first.clone(), vec![end(2)]].concat();
    let answers = after(&fourth, &[10_650, 10_666, 10_651].map(|height| closing_call(Class::Fourth, 2, height)));
    assert_eq!(answers, [36, 36, 0]);
    assert_eq!(figures(&[fourth.clone(), vec![closing_call(Class::Fourth, 2, 10_651)]].concat())[..3], [280, 2_564, 1]);
    assert_eq!(figures(&[fourth, vec![closing_call(Class::Fourth, 2, 10_665)]].concat())[..3], [-280, 2_564, 1]);
    // W is exactly on the limit: 25 × 400² = 800 × 5000
    let exact = [measured_opening(Class::Fourth, MEASURED), run_of(FIRST, 625, 0, &[0, 0]), vec![end(2)]].concat();
    assert_eq!(after(&exact, &[9_989, 10_011, 9_990].map(|height| closing_call(Class::Fourth, 2, height))), [36, 36, 0]);
    // third order, R 5000: 625 × 240² = 7200 × 5000; the section has Q 0
    let third = [measured_opening(Class::Third, MEASURED), section(1, 2, 0, 0)].concat();
    assert_eq!(after(&third, &[9_993, 10_007, 9_994].map(|height| closing_call(Class::Third, 2, height))), [36, 36, 0]);
}

/// A section out and back with this R and these sums of twice-heights, in half mm.
fn both_ways(r: i64, out: i64, back: i64) -> Vec<Call> {
    let [out_sum, back_sum] = [r / 2, r - r / 2];
    let run = |k, sum: i64, twice| run_of(k, sum / 4, -(sum % 4), &[twice, 0]);
    [run(FIRST, out_sum, out), vec![end(2)], run(SECOND, back_sum, back), vec![end(1)]].concat()
}

/// R 2564: 625 D² ≤ 1800 × 2564 as long as D is at most 85: 80 and 90. An R below 2000 counts as 2000, which allows 75: 70 and 80. On a spur 25 D² ≤ 200 R: R 5000
/// allows 200 exactly, R 1200 the 126 of R 2000.
#[test]
fn out_and_back() {
    for (class, r, most) in [(Class::Third, 2_564, 8), (Class::Third, 1_200, 7), (Class::Third, 2_223, 8), (Class::Third, 2_222, 7), (Class::Spur, 5_000, 20), (Class::Spur, 4_999, 19), (Class::Spur, 1_200, 12)] {
        for (d, number) in [(most, 0), (-most, 0), (most + 1, 32), (-most - 1, 32)] {
            for constants in [MEASURED, [46_870, 47_870]] {
                let mut calls = [measured_opening(class, constants), both_ways(r, 700, d - 700)].concat();
                let last = calls.pop().expect("the end of the return");
                assert_eq!(after(&calls, &[last]), [number], "{class:?}, R {r}, D {d}");
            }
        }
    }
}

/// t keeps its unit. R 20,000 and D 240 have 500,000 × 240² / (100 × 20,000) = 14,400; R 1,200 and D 70 have 20,417, rounded from 20,416.6…
#[test]
fn t_of_a_section() {
    let level = [0; 9];
    let [out, back] = [(FIRST, 24), (SECOND, 0)].map(|(k, twice)| run_of(k, 500, 0, &[&[twice][..], &level].concat()));
    let long = [measured_opening(Class::Third, MEASURED), out, vec![end(2)], back, vec![end(1), closing_call(Class::Third, 2, 10_006)]].concat();
    assert_eq!(figures(&long)[..5], [0, 20_000, 1, 14_400, 0]);
    let short = [measured_opening(Class::Third, MEASURED), both_ways(1_200, 7, 0), vec![closing_call(Class::Third, 2, 10_002)]].concat();
    // Q 70, the end is 2 mm higher: W 70 − 80
    assert_eq!(figures(&short)[..5], [-10, 1_200, 1, 20_417, 0]);
}

/// Sections of R 5000: D 60 has t 3600. T is judged as without measured constants: at 3600 n, and one D more.
#[test]
fn verdicts() {
    let closed = |class: Class, n: i64, d: i64, last: i64, height: i64| {
        let sections = (1..n).flat_map(|k| section(k, k + 1, d, 0));
        let calls = measured_opening(class, MEASURED).into_iter().chain(sections).chain(section(n, n + 1, last, 0));
        figures(&calls.chain([closing_call(class, n + 1, height)]).collect::<Vec<_>>())[..5].to_vec()
    };
    // Q is 60 a section, 1.5 mm
    assert_eq!(closed(Class::Third, 20, 6, 6, 10_030), [0, 100_000, 20, 72_000, 1]);
    assert_eq!(closed(Class::Third, 20, 6, 7, 10_030), [10, 100_000, 20, 73_300, 2]);
    assert_eq!(closed(Class::Third, 19, 6, 7, 10_029), [-10, 95_000, 19, 69_700, 0]);
    assert_eq!(closed(Class::Spur, 20, 10, 10, 0), [0, 100_000, 20, 200_000, 1]);
    assert_eq!(closed(Class::Spur, 20, 10, 11, 0), [0, 100_000, 20, 202_100, 2]);
}

/// Heights are rounded from fortieths of a mm, a tie to the even one: case A's second section twice from 10000 to 11099 has W 40 and its middle at 10549.5.
#[test]
fn heights_at_a_tie() {
    let [_, second] = case_a();
    for (start, middle, corrections) in [(10_000, 10_550, [0, -40]), (10_001, 10_550, [-40, 0])] {
        let opened = level_tests::plain::Opened { height: start, ..usual(4) };
        let calls = [vec![Call::Open(opened), KON, ANG], second.clone(), vec![end(2)], second.clone(), vec![end(3), closing_call(Class::Fourth, 3, start + 1_099)]].concat();
        let given = figures(&calls);
        assert_eq!(given[..3], [40, 3_200, 2]);
        assert_eq!(given[10..22], [1, 0, 0, start, 2, 1_600, corrections[0], middle, 3, 3_200, corrections[1], start + 1_099]);
    }
}

/// On a spur heights are start plus running Q: Q is 100 a section, 2.5 mm. A correction is what the printed heights have more: 40 × 2 − 100, then 40 × 3 − 100.
#[test]
fn a_spur() {
    let sections = (1..=3).flat_map(|k| section(k, k + 1, 10, 0));
    let calls: Vec<Call> = measured_opening(Class::Spur, MEASURED).into_iter().chain(sections).chain([Call::CloseSpur(4)]).collect();
    let given = figures(&calls);
    assert_eq!(given[..10], [0, 15_000, 3, 30_000, 0, 0, 0, 0, 0, 3]);
    assert_eq!(given[10..26], [1, 0, 0, 10_000, 2, 5_000, -20, 10_002, 3, 10_000, 20, 10_005, 4, 15_000, 20, 10_008]);
}

/// A loop of three sections of R 5000: Q 60, −20 and −10 leave W 30. The shares are a third of it each, so the heights are 10001.25, 10000.5 and 10000.
#[test]
fn a_loop() {
    let calls = [measured_opening(Class::Third, MEASURED), section(1, 2, 6, 0), section(2, 3, 0, 2), section(3, 1, 0, 1), vec![closing_call(Class::Third, 1, 10_000)]].concat();
    let given = figures(&calls);
    // D 60, 20 and 10: t 3600, 400 and 100
    assert_eq!(given[..5], [30, 15_000, 3, 4_100, 0]);
    // 40 − 60, −40 + 20, 0 + 10; 10000.5 goes to the even 10000
    assert_eq!(given[10..26], [1, 0, 0, 10_000, 2, 5_000, -20, 10_001, 3, 10_000, -20, 10_000, 1, 15_000, 10, 10_000]);
}

/// Of a line whose runs are all ended nothing shows the constants: the figures are the same for all of them.
#[test]
fn the_constants_cancel() {
    for class in Class::ALL {
        let rest = if class.goes_both_ways() { [section(1, 2, 9, -3), section(2, 3, -5, 8)].concat() } else { case_a().into_iter().zip(2..).flat_map(|(run, k)| [run, vec![end(k)]].concat()).collect() };
        let last = if class == Class::Fourth { 11_206 } else { 10_000 };
        let closed = |constants| figures(&[measured_opening(class, constants), rest.clone(), vec![closing_call(class, 3, last)]].concat());
        let nominal = closed([46_870, 47_870]);
        for constants in [MEASURED, [46_860, 47_880], [46_880, 47_860], [46_851, 47_852]] {
            assert_eq!(closed(constants), nominal, "{class:?} {constants:?}");
        }
    }
}

/// The list with these constants directly after the first opening that is taken, and its place; none where no opening is.
fn with_constants(calls: &[Call], constants: [i64; 2]) -> Option<(Vec<Call>, usize)> {
    let (mut list, mut reading) = (calls.to_vec(), Reading::fresh());
    let place = 1 + calls.iter().position(|call| matches!(call, Call::Open(_) | Call::OpenSpur(_)) && reading.apply(call) == Answer::Taken)?;
    list.insert(place, Call::Constants(constants));
    Some((list, place))
}

/// With the nominal constants in tenths each call answers as without them, and the figures are ten times as large where they have another unit.
#[test]
fn nominal_constants_in_tenths() {
    let mut random = Random::new(203);
    let mut closed = 0;
    for _ in 0..10_000 {
        let mut calls = book(&mut random);
        calls.retain(|call| !matches!(call, Call::Constants(_)));
        let Some((list, place)) = with_constants(&calls, [46_870, 47_870]) else { continue };
        let ((mut numbers, tenths), (plain, mut figures)) = (run(&list), run(&calls));
        assert_eq!(numbers.remove(place), 0, "{list:?}");
        assert_eq!(numbers, plain, "{list:?}");
        closed += u64::from(figures[2] > 0);
        let corrections = (12..figures.len()).step_by(4);
        for at in [0, 6].into_iter().chain(corrections) {
            figures[at] *= 10;
        }
        assert_eq!(tenths, figures, "{list:?}");
    }
    assert!(closed >= 3_000, "{closed} closed");
}

/// The random lists come to both sides of the limits of e and of the faces where tenths decide: stations that are taken within the last mm of a limit, some on the
/// limit itself, and refused within the first mm beyond.
#[test]
fn what_the_random_lists_meet() {
    let mut random = Random::new(2_030);
    let (mut near, mut on, mut beyond, mut apart) = (0, 0, 0, 0);
    for _ in 0..5_000 {
        let mut reading = Reading::fresh();
        for call in book(&mut random) {
            let answer = reading.apply(&call);
            let Call::Station { back_k, fore_k, readings } = call else { continue };
            let (Staffs::Measured(_), Some(opened)) = (reading.staffs, reading.opened) else { continue };
            let (station, limits) = (Station { back_k, fore_k, readings }, limits(opened.order, opened.instrument));
            let (most, faces) = (10 * limits.e, 10 * limits.faces);
            match answer {
                Answer::Taken => {
                    let e = station.e(BACK, reading.staffs).abs().max(station.e(FORE, reading.staffs).abs());
                    near += u64::from(e > most - 10);
                    on += u64::from(e == most);
                    apart += u64::from(station.faces(reading.staffs).abs() > faces - 10);
                }
                Answer::Refused(27) => {
                    let e = station.e(BACK, reading.staffs).abs().max(station.e(FORE, reading.staffs).abs());
                    beyond += u64::from(e < most + 10);
                }
                Answer::Refused(28) => apart += u64::from(station.faces(reading.staffs).abs() < faces + 10),
                _ => {}
            }
        }
    }
    println!("{near} near, {on} on the limit, {beyond} just beyond, {apart} with faces about their limit");
    assert!(near >= 5_000 && on >= 500 && beyond >= 50 && apart >= 1_000, "{near} {on} {beyond} {apart}");
}

/// In a text: 1 and 2 come before 42, 42 before 43; line 10 is after refused lines only and is taken.
#[test]
fn in_a_text() {
    let kon = |values: &[i64]| line("KON", values).expect("values of eight columns");
    let mut text = [text_of(&[]), kon(&[46_873, 47_866]), text_of(&open(Class::Fourth))[84..].to_vec()].concat();
    for one in [
        kon(&[46_873]),
        kon(&[46_873, 47_866, 0]),
        filled("KON 46873.0 47866.0"),
        filled("kon   46873   47866"),
        kon(&[4_687, 4_787]),
        filled("RUN       2"),
        kon(&[46_873, 47_866]),
        kon(&[46_873, 47_866]),
        line_of(&ANG).expect("a test's line"),
        kon(&[46_873, 47_971]),
        kon(&[46_873, 47_866]),
        line_of(&case_a()[0][0]).expect("a station's line"),
        filled("END       1   10000"),
        kon(&[46_873, 47_866]),
    ] {
        text.extend(one);
    }
    let refusals = [(2, 43), (4, 2), (5, 1), (6, 2), (7, 1), (8, 42), (9, 29), (11, 43), (13, 42), (14, 43), (16, 33), (17, 43)];
    let refusals = refusals.map(|(line, number)| filled(&format!("REF{line:8}{number:8}")));
    let expected = [filled("REDUCED LEVELS"), refusals.concat(), filled("OPN       0")].concat();
    assert_eq!(report(&text).map(|one| words(&one)), Ok(words(&expected)));
}
