//! Worked tests of the level (document 02, W-204): lists of calls and a text, each run by the proved book and by the other implementation.

use level_tests::angles::{any_distances, values_of};
use level_tests::both::{after, figures, report, run, words};
use level_tests::collimation::angle_allowed;
use level_tests::fixed::{faces, run_of, section, station, FIRST, SECOND};
use level_tests::opening::{closing_call, opening, opening_call, usual, TABLE_B7};
use level_tests::plain::Call;
use level_tests::random::Random;
use level_tests::rules::Class;
use level_tests::write::{filled, line, line_of, text_of};

/// A book of a class that is open, its level not tested.
fn open(class: Class) -> Vec<Call> {
    vec![opening_call(class, usual(class.order()))]
}

/// A test with this U and these distances.
fn test_of(u: i64, [d1, d2]: [i64; 2]) -> Call {
    Call::Collimation([6_000, 6_010, 6_000 + u, 6_010, d1, d2])
}

/// Tests that are taken, above 20″, and out of range.
fn tests() -> [Call; 3] {
    [test_of(0, [6_000, 45_000]), test_of(300, [6_000, 45_000]), test_of(0, [6_000, 39_999])]
}

/// What a test answers on a book that is just opened.
fn answer(test: Call) -> u8 {
    after(&open(Class::Fourth), &[test])[0]
}

fn good_station() -> Call {
    station(FIRST, [500, 500], 20)
}

#[test]
fn table_b7() {
    for class in Class::ALL {
        assert_eq!(after(&open(class), &[Call::Collimation(TABLE_B7), good_station()]), [0, 0], "{class:?}");
    }
    // exchanged staffs change U's sign only
    let [a1, b1, a2, b2, d1, d2] = TABLE_B7;
    assert_eq!(answer(Call::Collimation([b1, a1, b2, a2, d1, d2])), 0);
}

/// The least and the largest U of the table's distances and of the extreme ones, and one more. The correction for curvature and refraction makes the two
/// sides unlike.
#[test]
fn the_largest_angle() {
    for (distances, least, largest) in [
        ([6_800, 40_300], -25, 26),
        ([5_000, 40_000], -26, 28),
        ([7_000, 40_000], -24, 26),
        ([5_000, 50_000], -33, 36),
        ([7_000, 50_000], -31, 34),
    ] {
        let answers = [least - 1, least, 0, largest, largest + 1].map(|u| answer(test_of(u, distances)));
        assert_eq!(answers, [45, 0, 0, 0, 45], "{distances:?}");
    }
    let far = [[0, 12_000, 12_000, 0], [12_000, 0, 0, 12_000]].map(|[a1, b1, a2, b2]| answer(Call::Collimation([a1, b1, a2, b2, 6_000, 45_000])));
    assert_eq!(far, [45, 45]);
}

/// The distances, of all in their ranges, that come nearest to the limit on each side; no three values meet it exactly. A millimetre decides.
#[test]
fn nearest_to_the_limit() {
    for (u, [d1, d2]) in [(33, [5_402, 46_246]), (-32, [5_877, 49_038])] {
        let answers = [[d1, d2 - 1], [d1 + 1, d2], [d1, d2], [d1, d2 + 1], [d1 - 1, d2]].map(|distances| answer(test_of(u, distances)));
        assert_eq!(answers, [45, 45, 0, 0, 0], "{u}");
    }
}

/// The rule is formula B11 of source document 000, with Δ an eighth of U.
#[test]
fn formula_b11() {
    let mut random = Random::new(204);
    for _ in 0..100_000 {
        let u = random.between(-60, 60);
        let distances = any_distances(&mut random);
        let [d1, d2] = distances.map(|one| one as f64);
        let i = u as f64 / 8.0 * 206_265.0 / (d2 - d1) - 1.61e-5 * (d1 + d2);
        if (i.abs() - 20.0).abs() > 1e-6 {
            assert_eq!(angle_allowed(&values_of(&mut random, u, distances)), i.abs() < 20.0, "{u} {distances:?}");
        }
    }
}

/// Each value at the ends of its range, one beyond and far beyond.
#[test]
fn ranges() {
    let (least, largest) = ([0, 0, 0, 0, 5_000, 40_000], [12_000, 12_000, 12_000, 12_000, 7_000, 50_000]);
    for values in [least, largest, [0, 12_000, 0, 12_000, 5_000, 50_000], [12_000, 0, 12_000, 0, 7_000, 40_000]] {
        assert_eq!(answer(Call::Collimation(values)), 0);
    }
    for (ends, one, far) in [(least, -1, i64::MIN), (largest, 1, i64::MAX)] {
        for k in 0..6 {
            let with = |value: i64| std::array::from_fn(|at| if at == k { value } else { ends[at] });
            assert_eq!([ends[k] + one, far].map(|value| answer(Call::Collimation(with(value)))), [44, 44], "{ends:?}, value {k}");
        }
    }
}

/// A refused test changes nothing and may be tried again; after one that is taken none is.
#[test]
fn again() {
    let [good, above, out] = tests();
    for class in Class::ALL {
        let calls = [&above, &good_station(), &out, &above, &good, &good, &above, &out, &good_station(), &good, &above, &out].map(Call::clone);
        assert_eq!(after(&open(class), &calls), [45, 46, 44, 45, 0, 45, 45, 44, 0, 45, 45, 44], "{class:?}");
    }
}

/// What the readings alone cause comes before 46, what the station's figures cause after it; ends, drops and closings do not wait for a test.
#[test]
fn a_station_before_the_test() {
    let staffs = |back: [i64; 4], fore: [i64; 4]| Call::Station { back_k: FIRST, fore_k: SECOND, readings: [back, fore] };
    let stations = [
        (staffs([3_001, 0, 1, 1], [3_000, 0, 1, 1]), 6, 6),
        (Call::Station { back_k: FIRST, fore_k: FIRST, readings: [[0; 4]; 2] }, 7, 7),
        (staffs([1_400, 1_600, 1_500, 6_287], [1_600, 1_400, 1_500, 6_187]), 8, 8),
        (station(FIRST, [1_501, 1_500], 0), 46, 24),
        (station(FIRST, [500, 469], 0), 46, 25),
        (faces(4, 0), 46, 27),
        (faces(3, -3), 46, 28),
        (good_station(), 46, 0),
    ];
    for class in [Class::Fourth, Class::Spur] {
        for (call, before, behind) in &stations {
            let answers = [open(class), opening(class)].map(|book| after(&book, std::slice::from_ref(call))[0]);
            assert_eq!(answers, [*before, *behind], "{call:?}");
        }
        let calls = [Call::EndRun(2), Call::DropRun, Call::DropSection, closing_call(class, 1, 10_000), good_station(), Call::EndRun(2)];
        assert_eq!(after(&open(class), &calls), [29, 0, 0, 33, 46, 29]);
    }
    assert_eq!(after(&[], &[good_station(), stations[0].0.clone()]), [21, 6]);
}

/// A fresh or closed book gives 21, whatever the angle; values out of range come before it.
#[test]
fn books_that_are_not_open() {
    let [good, above, out] = tests();
    let all = [good, above, out];
    assert_eq!(after(&[], &all), [21, 21, 44]);
    for class in Class::ALL {
        let whole = if class.goes_both_ways() { section(1, 2, 0, 0) } else { [run_of(FIRST, 625, 0, &[0, 0]), vec![Call::EndRun(2)]].concat() };
        let closed = [opening(class), whole, vec![closing_call(class, 2, 10_000)]].concat();
        assert_eq!(after(&closed, &all), [21, 21, 44], "{class:?}");
    }
}

/// Out of place in the midst of a line: in a run, with a run waiting, after a section, after drops, and on a shut loop, where it is 45 as well.
#[test]
fn in_the_midst_of_a_line() {
    let [good, above, out] = tests();
    let all = [good, above, out];
    let out = run_of(FIRST, 625, 0, &[0, 0]);
    let one = [opening(Class::Third), section(1, 2, 0, 0)].concat();
    let shut = [&one[..], &section(2, 1, 0, 0)].concat();
    for book in [
        [&opening(Class::Third), &out[..1]].concat(),
        [&opening(Class::Third), &out[..], &[Call::EndRun(2)]].concat(),
        one.clone(),
        [&one[..], &out, &[Call::EndRun(3), Call::DropSection]].concat(),
        [opening(Class::Third), vec![Call::DropRun, Call::DropSection]].concat(),
        shut.clone(),
    ] {
        assert_eq!(after(&book, &all), [45, 45, 44], "{book:?}");
    }
    assert_eq!(after(&shut, &[good_station(), closing_call(Class::Third, 1, 10_000)]), [21, 0]);
}

/// The figures of a book are the same with and without tests that are refused.
#[test]
fn figures_without_the_test() {
    let [_, above, out] = tests();
    let rest = [section(1, 2, 10, 0), vec![closing_call(Class::Spur, 2, 0)]].concat();
    let plain = figures(&[opening(Class::Spur), rest.clone()].concat());
    let calls = [open(Class::Spur), vec![above, out, Call::Collimation(TABLE_B7)], rest].concat();
    assert_eq!(run(&calls).1, plain);
}

/// In a text: 1 and 2 come before 44.
#[test]
fn in_a_text() {
    let ang = |values: &[i64]| line("ANG", values).expect("values of eight columns");
    let mut text = text_of(&open(Class::Fourth));
    for one in [
        ang(&[5_937, 5_951, 6_043, 6_067, 6_800]),
        ang(&[5_937, 5_951, 6_043, 6_067, 6_800, 40_300, 0]),
        ang(&[-1, 5_951, 6_043, 6_067, 6_800, 40_300]),
        ang(&[5_937, 5_951, 6_143, 6_067, 6_800, 40_300]),
        line_of(&good_station()).expect("a station's line"),
        ang(&TABLE_B7),
        ang(&TABLE_B7),
        filled("END       1   10000"),
    ] {
        text.extend(one);
    }
    let refusals = ["REF       3       2", "REF       4       1", "REF       5      44", "REF       6      45", "REF       7      46", "REF       9      45", "REF      10      33"];
    let expected = [&["REDUCED LEVELS"], &refusals[..], &["OPN       0"]].concat();
    assert_eq!(report(&text).map(|report| words(&report)), Ok(words(&expected.into_iter().flat_map(filled).collect::<Vec<u8>>())));
}
