//! Heights in tenths of a millimetre (document 02, W-214): lists of calls and texts, each run by the proved book and by the other implementation. What is printed is in
//! units a tenth of the former ones; what is decided is the same.

use level_tests::both::{after, figures, report, run, words};
use level_tests::fixed::{run_of, section, FIRST, SECOND};
use level_tests::generate::book;
use level_tests::opening::{closing_call, opening_call, opening_of, usual, MEASURED, TABLE_B7};
use level_tests::plain::{Call, Opened};
use level_tests::random::Random;
use level_tests::rules::Class;
use level_tests::write::{filled, text_of};

const KON: Call = Call::Constants(MEASURED);
const ANG: Call = Call::Collimation(TABLE_B7);

/// From a height, in a print unit.
fn from(class: Class, height: i64, prints: i64) -> Vec<Call> {
    opening_of(class, Opened { height, prints, ..usual(class.order()) })
}

/// The same from 10.000 m with measured constants.
fn measured(class: Class, prints: i64) -> Vec<Call> {
    vec![opening_call(class, Opened { prints, ..usual(class.order()) }), KON, ANG]
}

fn end(number: i64) -> Call {
    Call::EndRun(number)
}

/// Case A's two sections, the first to 2 and the second to 3.
fn case_a() -> [Vec<Call>; 2] {
    let staffs = |back_k, back, fore| Call::Station { back_k, fore_k: FIRST + SECOND - back_k, readings: [back, fore] };
    let runs = [
        [staffs(FIRST, [1_571, 1_197, 1_384, 6_171], [739, 363, 551, 5_239]), staffs(SECOND, [1_965, 1_700, 1_832, 6_519], [2_141, 1_874, 2_007, 6_793])],
        [staffs(FIRST, [1_300, 1_100, 1_200, 5_987], [1_000, 800, 900, 5_587]), staffs(SECOND, [1_500, 1_300, 1_400, 6_087], [1_250, 1_050, 1_150, 5_937])],
    ];
    [0, 1].map(|k| [&runs[k][..], &[end(k as i64 + 2)]].concat())
}

/// A's second section so many times, closed this far above the start.
fn seconds(n: i64, opened: Vec<Call>, height: i64) -> Vec<Call> {
    let [_, second] = case_a();
    let sections = (1..=n).flat_map(|k| [&second[..2], &[end(k + 1)]].concat());
    opened.into_iter().chain(sections).chain([closing_call(Class::Fourth, n + 1, height)]).collect()
}

/// Correction and height of each point behind the start, and the height of the start.
fn printed(figures: &[i64]) -> (i64, Vec<(i64, i64)>) {
    let n = figures[2] as usize;
    (figures[13], figures[14..14 + 4 * n].chunks(4).map(|point| (point[2], point[3])).collect())
}

fn text(lines: &[&str]) -> Vec<u8> {
    lines.iter().flat_map(|one| filled(one)).collect()
}

/// 10658 mm less 8 × 2564 / (4 × 4164) are 10656.768. W is 80 fortieths, the corrections 4 × 6568 − 26320 and 4 × 5492 − 22000.
#[test]
fn case_a_in_tenths() {
    let [first, second] = case_a();
    let rest = text_of(&[vec![ANG], first.clone(), second.clone(), vec![closing_call(Class::Fourth, 3, 11_206)]].concat())[84..].to_vec();
    let book = |lin: &str| report(&[text(&["LEVEL BOOK", lin]), rest.clone()].concat()).map(|one| words(&one));
    let tenths = [
        "REDUCED LEVELS",
        "CLO      80    4164       2       0       0",
        "PNT       1       0       0          100000",
        "PNT       2    2564     -48          106568",
        "PNT       3    4164     -32          112060",
    ];
    let whole = [
        "REDUCED LEVELS",
        "CLO       8    4164       2       0       0",
        "PNT       1       0       0   10000",
        "PNT       2    2564      -4   10657",
        "PNT       3    4164      -4   11206",
    ];
    assert_eq!(book("LIN       4       3       1   10000"), Ok(words(&text(&tenths))));
    assert_eq!(book("LIN       4       3       1   10000      10"), Ok(words(&text(&tenths))));
    assert_eq!(book("LIN       4       3       1   10000       1"), Ok(words(&text(&whole))));
    let given = figures(&[from(Class::Fourth, 10_000, 10), first, second, vec![closing_call(Class::Fourth, 3, 11_206)]].concat());
    assert_eq!(given[..10], [80, 4_164, 2, 0, 0, 0, 0, 0, 0, 2]);
    assert_eq!(given[10..22], [1, 0, 0, 100_000, 2, 2_564, -48, 106_568, 3, 4_164, -32, 112_060]);
}

/// A's second section twice from 10000 to 11099: the middle is exactly 10549.5, which whole mm round to the even 10550 and tenths have as it is.
#[test]
fn the_middle() {
    for (start, whole) in [(10_000, [(0, 10_550), (-4, 11_099)]), (10_001, [(-4, 10_550), (0, 11_100)])] {
        let tenths = figures(&seconds(2, from(Class::Fourth, start, 10), start + 1_099));
        assert_eq!(tenths[..3], [40, 3_200, 2]);
        assert_eq!(printed(&tenths), (10 * start, vec![(-20, 10 * start + 5_495), (-20, 10 * start + 10_990)]));
        let given = figures(&seconds(2, from(Class::Fourth, start, 1), start + 1_099));
        assert_eq!((given[0], printed(&given)), (4, (start, whole.to_vec())));
    }
}

/// Four times, W 4: 10549.75, 11099.5 and 11649.25. The first and the last are ties of tenths, which go to the even ones.
#[test]
fn ties_in_tenths() {
    for (start, heights, corrections) in [
        (10_000, [105_498, 110_995, 116_492, 121_990], [-8, -12, -12, -8]),
        (-20_000, [-194_502, -189_005, -183_508, -178_010], [-8, -12, -12, -8]),
    ] {
        let given = figures(&seconds(4, from(Class::Fourth, start, 10), start + 2_199));
        assert_eq!(given[..3], [40, 6_400, 4]);
        assert_eq!(printed(&given), (10 * start, corrections.into_iter().zip(heights).collect()));
    }
}

/// On a spur start plus running Q, in quarter mm 9, 18 and 27: 2.25, 4.5 and 6.75 mm. W is 0, a correction what rounding changes: two fortieths.
#[test]
fn a_spur() {
    let sections: Vec<Call> = (1..=3).flat_map(|k| section(k, k + 1, 9, 0)).collect();
    for (height, prints, points) in [
        (10_000, 10, [(-2, 100_022), (2, 100_045), (2, 100_068)]),
        (-3, 10, [(-2, -8), (2, 15), (2, 38)]),
        (10_000, 1, [(-1, 10_002), (-1, 10_004), (3, 10_007)]),
    ] {
        let given = figures(&[from(Class::Spur, height, prints), sections.clone(), vec![Call::CloseSpur(4)]].concat());
        assert_eq!((given[0], printed(&given)), (0, (prints * height, points.to_vec())), "{height} {prints}");
    }
}

/// With measured constants both factors multiply: W and corrections of case A are in four-hundredths of a mm.
#[test]
fn measured_constants_in_tenths() {
    let [first, second] = case_a();
    let close = |prints| figures(&[measured(Class::Fourth, prints), first.clone(), second.clone(), vec![closing_call(Class::Fourth, 3, 11_206)]].concat());
    let (tenths, whole) = (close(10), close(1));
    assert_eq!((tenths[0], printed(&tenths)), (800, (100_000, vec![(-480, 106_568), (-320, 112_060)])));
    assert_eq!((whole[0], printed(&whole)), (80, (10_000, vec![(-40, 10_657), (-40, 11_206)])));
    let twice = figures(&seconds(2, measured(Class::Fourth, 10), 11_099));
    assert_eq!((twice[0], printed(&twice)), (400, (100_000, vec![(-200, 105_495), (-200, 110_990)])));
    let four = figures(&seconds(4, measured(Class::Fourth, 10), 12_199));
    assert_eq!(printed(&four).1.iter().map(|one| one.1).collect::<Vec<_>>(), [105_498, 110_995, 116_492, 121_990]);
    // the present run is as with whole mm
    let present = figures(&[&measured(Class::Fourth, 10), &first[..1]].concat());
    assert_eq!(present[5..10], [1, 16_657, 750, -2, 0]);
    let spur: Vec<Call> = measured(Class::Spur, 10).into_iter().chain((1..=3).flat_map(|k| section(k, k + 1, 9, 0))).chain([Call::CloseSpur(4)]).collect();
    assert_eq!(printed(&figures(&spur)), (100_000, vec![(-20, 100_022), (20, 100_045), (20, 100_068)]));
}

/// W's limit is for the former W: R 2564 allows 28 quarter mm, with measured constants 286 fortieths. A W that is printed as 280 or 2,800 is taken.
#[test]
fn limits_keep_the_former_closure() {
    let [first, _] = case_a();
    for (opened, w) in [(from(Class::Fourth, 10_000, 10), 280), (measured(Class::Fourth, 10), 2_800)] {
        let line = [opened, first.clone()].concat();
        assert_eq!(after(&line, &[10_650, 10_666, 10_651].map(|height| closing_call(Class::Fourth, 2, height))), [36, 36, 0]);
        assert_eq!(figures(&[line.clone(), vec![closing_call(Class::Fourth, 2, 10_651)]].concat())[0], w);
        assert_eq!(figures(&[line, vec![closing_call(Class::Fourth, 2, 10_665)]].concat())[0], -w);
    }
    // exactly on it: 625 × 24² = 72 × 5000
    let third = [from(Class::Third, 10_000, 10), section(1, 2, 0, 0)].concat();
    assert_eq!(after(&third, &[9_993, 10_007, 9_994].map(|height| closing_call(Class::Third, 2, height))), [36, 36, 0]);
    assert_eq!(figures(&[third, vec![closing_call(Class::Third, 2, 9_994)]].concat())[0], 240);
    // D and T have nothing to do with it
    let apart = |prints| [from(Class::Third, 10_000, prints), section(1, 2, 13, 0)].concat();
    assert_eq!([1, 10].map(|prints| run(&apart(prints)).0), [[0, 0, 0, 0, 0, 0, 0, 32]; 2].map(Vec::from));
    let within = |prints| figures(&[from(Class::Third, 10_000, prints), section(1, 2, 12, 0), vec![closing_call(Class::Third, 2, 10_003)]].concat())[1..5].to_vec();
    assert_eq!([1, 10].map(within), [[5_000, 1, 14_400, 0]; 2].map(Vec::from));
}

/// A loop's end height is its start height in mm.
#[test]
fn a_loop() {
    let calls = [from(Class::Third, 10_000, 10), section(1, 2, 6, 0), section(2, 3, 0, 2), section(3, 1, 0, 1)].concat();
    assert_eq!(after(&calls, &[100_000, 10_001, 10_000].map(|height| closing_call(Class::Third, 1, height))), [34, 34, 0]);
    let given = figures(&[calls, vec![closing_call(Class::Third, 1, 10_000)]].concat());
    // 10001.25, 10000.5 and 10000; the first one is a tie
    assert_eq!((given[0], printed(&given)), (30, (100_000, vec![(-12, 100_012), (-8, 100_005), (-10, 100_000)])));
}

/// 57 for any number but 1 and 10, after 3, 4 and 5 and before 21; it changes nothing.
#[test]
fn other_print_units() {
    let opened = |class: Class, prints| opening_call(class, Opened { prints, ..usual(class.order()) });
    for class in Class::ALL {
        for prints in [0, 2, 5, 9, 11, 100, 1_000, -1, -10, 257, 266, (1 << 32) + 1, (1 << 32) + 10, i64::MIN, i64::MAX] {
            let first = run_of(FIRST, 625, 0, &[0]);
            assert_eq!(after(&[], &[&[opened(class, prints), ANG, opened(class, 10), ANG][..], &first].concat()), [57, 21, 0, 0, 0], "{class:?} {prints}");
            assert_eq!(after(&from(class, 0, 1), &[opened(class, prints), opened(class, 1), opened(class, 10)]), [57, 21, 21], "{class:?} {prints}");
        }
    }
    let closed = [from(Class::Third, 10_000, 10), section(1, 2, 0, 0), vec![closing_call(Class::Third, 2, 10_000)]].concat();
    assert_eq!(after(&closed, &[opened(Class::Third, 0), opened(Class::Spur, 9), opened(Class::Fourth, 10)]), [57, 57, 21]);
    for (order, instrument, start, height, number) in
        [(5, 2, 0, 9_000_000, 3), (4, 2, 0, 9_000_000, 3), (4, 1, 0, 9_000_000, 4), (4, 3, 1, 9_000_000, 5), (4, 3, 1, -1_000_000, 5), (4, 3, 1, 0, 57)]
    {
        let wrong = Opened { order, instrument, start, height, prints: 0 };
        assert_eq!(after(&[], &[Call::Open(wrong), Call::OpenSpur(wrong)]), [number, number], "{wrong:?}");
    }
    // a spur's order comes before it, and constants have their place behind an opening that is refused
    let spur = Call::OpenSpur(Opened { prints: 0, ..usual(3) });
    assert_eq!(run(&[spur, opened(Class::Fourth, 0), opened(Class::Fourth, 10), opened(Class::Fourth, 0), KON]).0, [3, 57, 0, 57, 0]);
}

/// What the fifth field of LIN and SPR says: with blanks tenths, and so in each text without it; what is no number is 2, another number 57, more behind it 1.
#[test]
fn the_fifth_field() {
    let rest = text_of(&[vec![ANG], section(1, 2, 0, 0), vec![Call::EndRun(2)]].concat())[84..].to_vec();
    for (tag, close) in [("LIN       3", "END       2   10001"), ("SPR       4", "FIN       2")] {
        let book = |field: &str| {
            let opened = format!("{tag}       3       1   10000{field}");
            words(&report(&[text(&["LEVEL BOOK", &opened]), rest.clone(), filled(close)].concat()).unwrap())
        };
        let [tenths, whole] = ["PNT       1       0       0          100000", "PNT       1       0       0   10000"].map(|one| words(&filled(one)));
        for (field, expected) in [("", &tenths), ("      10", &tenths), ("       1", &whole)] {
            assert!(book(field).contains(expected), "{tag} {field:?}");
        }
        for (field, number) in [
            ("       x", 2),
            ("1       ", 2),
            ("      1 ", 2),
            ("      01", 2),
            ("      -0", 2),
            ("      +1", 2),
            ("     1.0", 2),
            ("\t       ", 2),
            ("       0", 57),
            ("       2", 57),
            ("     100", 57),
            ("      -1", 57),
            ("99999999", 57),
            ("       1x", 1),
            ("       x       1", 1),
            ("               1", 1),
            ("      10       0", 1),
        ] {
            let refused = words(&filled(&format!("REF       2{number:8}")));
            assert!(book(field).contains(&refused), "{tag} {field:?}: {}", book(field));
        }
    }
    // 2 and 57 in their order with the others; blanks stand for nothing in other places
    for (line, number) in [
        ("LIN       5       2       0 9000000       x", 2),
        ("LIN       5       2       0 9000000       2", 3),
        ("LIN       4       2       0 9000000       2", 3),
        ("LIN       4       3       0 9000000       2", 4),
        ("LIN       4       3       1 9000000       2", 5),
        ("LIN       4       3       1 8999999       2", 57),
        ("LIN       4       3       1              10", 2),
        ("SPR       3       3       1 8999999       2", 3),
        ("SPR       4       3       1              10", 2),
        ("ANG    5937    5951    6043    6067           40300", 2),
        ("STA    4787    1571    1197    1384            4687     739     363     551    5239", 2),
    ] {
        let refused = [text(&["REDUCED LEVELS", &format!("REF       2{number:8}")]), filled("OPN       0")].concat();
        assert_eq!(report(&text(&["LEVEL BOOK", line])).map(|one| words(&one)), Ok(words(&refused)), "{line}");
    }
}

/// Every height in tenths takes sixteen columns, at both ends of what may be known and, on a spur, beyond them.
#[test]
fn sixteen_columns() {
    for (height, tenths, whole) in [(-999_999, "        -9999990", " -999999"), (8_999_999, "        89999990", " 8999999"), (0, "               0", "       0"), (-1, "             -10", "      -1")] {
        for (prints, printed) in [(10, tenths), (1, whole)] {
            let calls = [from(Class::Third, height, prints), section(1, 2, 0, 0), vec![closing_call(Class::Third, 2, height)]].concat();
            let expected = text(&[
                "REDUCED LEVELS",
                "CLO       0    5000       1       0       0",
                &format!("PNT       1       0       0{printed}"),
                &format!("PNT       2    5000       0{printed}"),
            ]);
            assert_eq!(report(&text_of(&calls)).map(|one| words(&one)), Ok(words(&expected)), "{height} {prints}");
        }
    }
    // 2.5 mm down and up
    for (height, q, tenths, whole) in [(-999_999, -10, "       0       -10000015", "      -2-1000002"), (8_999_999, 10, "       0        90000015", "       2 9000002")] {
        for (prints, printed) in [(10, tenths), (1, whole)] {
            let calls = [from(Class::Spur, height, prints), section(1, 2, q, 0), vec![Call::CloseSpur(2)]].concat();
            let last = report(&text_of(&calls)).unwrap()[3 * 84..].to_vec();
            assert_eq!(words(&last), words(&filled(&format!("PNT       2    5000{printed}"))), "{height} {prints}");
        }
    }
}

/// The list with this print unit in each opening that has 1 or 10.
fn in_unit(calls: &[Call], prints: i64) -> Vec<Call> {
    let with = |opened: Opened| if [1, 10].contains(&opened.prints) { Opened { prints, ..opened } } else { opened };
    let change = |call: &Call| match call {
        Call::Open(opened) => Call::Open(with(*opened)),
        Call::OpenSpur(opened) => Call::OpenSpur(with(*opened)),
        other => other.clone(),
    };
    calls.iter().map(change).collect()
}

/// Random lists answer the same in both units. Of the figures W is ten times as large in tenths, the start and a line's end are the same heights, and the others are within
/// half a mm of those in whole ones; a correction is ten times the other but for what both are rounded by. All else is the same.
#[test]
fn tenths_beside_whole_millimetres() {
    let mut random = Random::new(2_140);
    let (mut closed, mut finer) = (0, 0);
    for _ in 0..10_000 {
        let calls = book(&mut random);
        let [(numbers, whole), (same, tenths)] = [1, 10].map(|prints| run(&in_unit(&calls, prints)));
        assert_eq!(numbers, same, "{calls:?}");
        assert_eq!(tenths[1..10], whole[1..10], "{calls:?}");
        assert_eq!(tenths[0], 10 * whole[0], "{calls:?}");
        let n = whole[2];
        let units = if calls.iter().any(|call| matches!(call, Call::Constants(_))) { 40 } else { 4 };
        let points = whole[10..].chunks(4).zip(tenths[10..].chunks(4));
        for ((one, other), k) in points.zip(0..) {
            assert_eq!(one[..2], other[..2], "{calls:?}");
            let known = k == 0 || (k == n && !calls.iter().any(|call| matches!(call, Call::OpenSpur(_))));
            assert!((other[3] - 10 * one[3]).abs() <= if known { 0 } else { 5 }, "{one:?} {other:?} {calls:?}");
            // half a mm of rounding at each end of the section
            assert!((other[2] - 10 * one[2]).abs() <= 10 * units, "{one:?} {other:?} {calls:?}");
            finer += u64::from(other[3] % 10 != 0);
        }
        closed += u64::from(n > 0);
    }
    println!("{closed} closed, {finer} heights that are no whole mm");
    assert!(closed >= 3_000 && finer >= 5_000, "{closed} {finer}");
}
