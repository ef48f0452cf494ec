//! Warnings of drift (document 02, W-208), by the proved function and by the other implementation.

use level_tests::both::{drift_in, words};
use level_tests::damage::{rubbish, text_book};
use level_tests::drift::{printed, MOST_WARNINGS};
use level_tests::examples::{book, examples};
use level_tests::fixed::{run_of, section_of, FIRST, SECOND};
use level_tests::largest::{blank_lines, largest_book};
use level_tests::opening::{closing_call, measured_opening, opening, MEASURED};
use level_tests::plain::Call;
use level_tests::programs;
use level_tests::random::Random;
use level_tests::rules::{Class, SHORTEST_FOR_D};
use level_tests::text::LONGEST_TEXT;
use level_tests::write::{filled, text_of};
use levelbook::{drift, Refusal};

const BOTH_WAYS: [Class; 2] = [Class::Third, Class::Spur];

/// Sections with these R and D, one after another.
fn sections(figures: &[(i64, i64)]) -> Vec<Call> {
    (1..).zip(figures).flat_map(|(from, &(r, d))| section_of(from, r, d, 0)).collect()
}

/// The warnings of an open line of such sections.
fn warnings(opening: Vec<Call>, figures: &[(i64, i64)], window: i64) -> Vec<usize> {
    let text = text_of(&[opening, sections(figures)].concat());
    let firsts = drift_in(&text, window, MOST_WARNINGS).unwrap();
    assert_eq!(drift(&text, window), Ok(firsts.clone()));
    firsts
}

/// The largest D that is within a fifth of the limit, and one more. 15,625 × D² = 18 × R for a D of 6 and an R of 31,250, and 625 × D² = 2 × R for 4 and 5,000.
/// Below 2,000 the largest is the same as there, where the true R of 16 would have 0, that of 867 at third order 0, and that of 624 on a spur 1.
#[test]
fn both_sides_of_a_fifth() {
    for (class, r, largest) in [
        (Class::Third, 16, 1),
        (Class::Third, 867, 1),
        (Class::Third, 1_999, 1),
        (Class::Third, 2_000, 1),
        (Class::Third, 3_472, 1),
        (Class::Third, 3_473, 2),
        (Class::Third, 5_000, 2),
        (Class::Third, 31_249, 5),
        (Class::Third, 31_250, 6),
        (Class::Spur, 16, 2),
        (Class::Spur, 624, 2),
        (Class::Spur, 1_999, 2),
        (Class::Spur, 2_000, 2),
        (Class::Spur, 2_812, 2),
        (Class::Spur, 2_813, 3),
        (Class::Spur, 4_999, 3),
        (Class::Spur, 5_000, 4),
    ] {
        for opening in [opening(class), measured_opening(class, MEASURED)] {
            for sign in [1, -1] {
                let beyond = (r, sign * (largest + 1));
                let within = (r, sign * largest);
                assert_eq!(warnings(opening.clone(), &[beyond; 3], 3), [1], "{class:?} {beyond:?}");
                for k in 0..3 {
                    let mut figures = [beyond; 3];
                    figures[k] = within;
                    assert_eq!(warnings(opening.clone(), &figures, 3), [], "{class:?} {figures:?}");
                }
            }
        }
    }
}

/// All D of a window have one sign; 0 has none.
#[test]
fn signs() {
    for class in BOTH_WAYS {
        let of = |signs: &[i64], window| {
            let figures: Vec<(i64, i64)> = signs.iter().map(|&sign| (2_000, 5 * sign)).collect();
            warnings(opening(class), &figures, window)
        };
        assert_eq!(of(&[1, 1, 1], 3), [1]);
        assert_eq!(of(&[-1, -1, -1], 3), [1]);
        for signs in [[1, 1, -1], [1, -1, 1], [-1, 1, 1], [-1, -1, 1], [1, 0, 1], [0, 1, 1], [1, 1, 0], [0, 0, 0]] {
            assert_eq!(of(&signs, 3), [], "{signs:?}");
        }
        assert_eq!(of(&[1, 1, 1, -1, -1, -1, -1], 3), [1, 4, 5]);
        assert_eq!(of(&[1, 1, 1, 1, -1, -1, -1, -1], 4), [1, 5]);
        assert_eq!(of(&[1, 1, 0, 1, 1, 1, 0, -1, -1, -1], 3), [4, 8]);
    }
}

/// Windows overlap; a line with fewer sections than a window has none.
#[test]
fn windows() {
    for class in BOTH_WAYS {
        for window in 3..=10 {
            for n in [0, 1, window - 1, window, window + 1, 12, 64] {
                let first = (n - window + 1).max(0);
                assert_eq!(warnings(opening(class), &vec![(2_000, 5); n as usize], window), (1..=first as usize).collect::<Vec<_>>(), "{n} sections");
            }
            // a section within a fifth is in none
            for k in 0..20 {
                let mut figures = [(2_000, 5); 20];
                figures[k].1 = 0;
                let without = |first: &usize| !(first - 1..first - 1 + window as usize).contains(&k);
                assert_eq!(warnings(opening(class), &figures, window), (1..=21 - window as usize).filter(without).collect::<Vec<_>>());
            }
        }
    }
}

/// A list with fewer places has the first ones; the count is whole.
#[test]
fn every_list() {
    let text = text_of(&[opening(Class::Third), sections(&[(16, -2); 64])].concat());
    for places in 0..=70 {
        assert_eq!(drift_in(&text, 3, places), Ok((1..=62.min(places)).collect()));
        assert_eq!(drift_in(&text, 10, places), Ok((1..=55.min(places)).collect()));
        assert_eq!(drift_in(&text, 11, places), Err(51));
    }
}

/// A run that waits is no section, nor is one that was dropped or lifted; closing changes nothing.
#[test]
fn finished_sections() {
    for class in BOTH_WAYS {
        let three = sections(&[(5_000, 5); 3]);
        let out = [run_of(FIRST, 625, 0, &[5, 0]), vec![Call::EndRun(4)]].concat();
        let back = run_of(SECOND, 625, 0, &[0, 0]);
        let two = [opening(class), sections(&[(5_000, 5); 2])].concat();
        let of = |calls: &[Call]| drift_in(&text_of(calls), 3, MOST_WARNINGS).unwrap();
        let waits = [two, out, back].concat();
        assert_eq!(of(&waits), []);
        assert_eq!(of(&[waits.clone(), vec![Call::EndRun(3)]].concat()), [1]);
        assert_eq!(of(&[waits.clone(), vec![Call::EndRun(3), Call::LiftSection]].concat()), []);
        assert_eq!(of(&[waits, vec![Call::DropSection, Call::EndRun(3)]].concat()), []);
        // Q 5 a section
        assert_eq!(of(&[opening(class), three, vec![closing_call(class, 4, 10_004)]].concat()), [1]);
    }
}

/// 51 for a window outside 3 to 10, on a fresh book too, and for a fourth-order line, open or closed; of a text 9 comes before.
#[test]
fn refusals() {
    let fourth = [opening(Class::Fourth), run_of(FIRST, 625, 0, &[0, 0]), vec![Call::EndRun(2)]].concat();
    let closed = [&fourth[..], &[closing_call(Class::Fourth, 2, 10_000)]].concat();
    let others = [vec![], opening(Class::Third), opening(Class::Spur), sections(&[(2_000, 5); 5])].map(|calls| text_of(&calls));
    let good = 3..=10;
    for window in (-3..=13).chain([i64::MIN, i64::MAX, 1 << 32, (1 << 32) + 3]) {
        let refused = if good.contains(&window) { Ok(vec![]) } else { Err(51) };
        for text in &others {
            assert_eq!(drift_in(text, window, MOST_WARNINGS), refused, "{window} {}", words(text));
        }
        for text in [&b""[..], &book("case-a")[84..], &blank_lines()] {
            assert_eq!(drift_in(text, window, MOST_WARNINGS), refused, "{window}");
        }
        for calls in [&fourth[..1], &fourth, &closed] {
            assert_eq!(drift_in(&text_of(calls), window, MOST_WARNINGS), Err(51), "{window}");
        }
        for text in [&[b' '; LONGEST_TEXT + 1][..], &[&largest_book(Class::Third)[..], b" "].concat()] {
            assert_eq!(drift_in(text, window, MOST_WARNINGS), Err(9), "{window}");
        }
    }
    assert_eq!(drift(&[b' '; LONGEST_TEXT + 1], 11), Err(Refusal::TextTooLong));
    assert_eq!(drift(&text_of(&closed), 3), Err(Refusal::DriftWindow));
}

/// R and D of a section: D one beyond a fifth of the limit, now and then within or further beyond.
fn drifting(random: &mut Random, class: Class, side: i64) -> (i64, i64) {
    let any = random.between(16, 6_000);
    let r = *random.pick(&[16, 867, 868, 1_999, 2_000, 2_001, 3_472, 3_473, 4_999, 5_000, any, any, any, any]);
    let (a, b) = if class == Class::Third { (15_625, 18) } else { (625, 2) };
    let fifth = (b * r.max(SHORTEST_FOR_D as i64) / a).isqrt();
    (r, side * (fifth + random.pick(&[0, 1, 1, 1, 1, 1, 1, 1, 1, 2])))
}

/// A line of such sections, one in eight on the other side than the one before it.
fn drifting_line(random: &mut Random) -> Vec<Call> {
    let class = *random.pick(&BOTH_WAYS);
    let most = *random.pick(&[5, 16, 16, 65]);
    let mut side = random.sign(1);
    let mut figures = Vec::new();
    for _ in 0..random.below(most) {
        side = if random.chance(1, 8) { -side } else { side };
        figures.push(drifting(random, class, side));
    }
    let opening = if random.chance(1, 3) { measured_opening(class, MEASURED) } else { opening(class) };
    [opening, sections(&figures)].concat()
}

#[test]
fn three_thousand_drifting_lines() {
    let mut random = Random::new(208);
    let (mut warned, mut none) = ([0; 11], 0);
    for _ in 0..3_000 {
        let text = text_of(&drifting_line(&mut random));
        let window = random.between(3, 10);
        let firsts = drift_in(&text, window, random.below(65) as usize).unwrap();
        warned[window as usize] += firsts.len();
        none += u64::from(firsts.is_empty());
    }
    println!("warnings by window {warned:?}, {none} lines without");
    assert!(warned[3..].iter().all(|&count| count >= 100) && none >= 500, "{warned:?} {none}");
}

/// Random texts of all kinds with any window.
#[test]
fn ten_thousand_books() {
    let mut random = Random::new(2_080);
    let (mut taken, mut warned) = (0, 0);
    for _ in 0..10_000 {
        let text = text_book(&mut random);
        let window = if random.chance(1, 8) { random.between(-1, 12) } else { random.between(3, 4) };
        let firsts = drift_in(&text, window, MOST_WARNINGS);
        taken += u64::from(firsts.is_ok());
        warned += firsts.unwrap_or_default().len();
    }
    println!("{taken} taken, {warned} warnings");
    assert!(taken >= 4_000 && warned >= 20, "{taken} {warned}");
    for _ in 0..1_000 {
        assert_eq!(drift_in(&rubbish(&mut random, 2_000), 3, MOST_WARNINGS), Ok(vec![]));
    }
}

/// The program prints a title and the warnings, or one line with the refusal.
#[test]
fn the_program() {
    let text = text_of(&[opening(Class::Third), sections(&[(16, -2); 64])].concat());
    let with = |arguments: &[&str], text: &[u8]| programs::printed("drift", arguments, text);
    let lines = ["WARNINGS OF DRIFT", "DRF       1", "DRF       2"].map(filled).concat();
    assert_eq!(words(&with(&["10"], &text)[..3 * 84]), words(&lines));
    for window in ["3", "4", "9", "10", "0", "2", "11", "03", "3 ", " 3", "+3", "-3", "3.0", "", "x", "100", "4294967299"] {
        assert_eq!(words(&with(&[window], &text)), words(&printed(Some(window), &text)), "{window:?}");
    }
    let lines = ["WARNINGS OF DRIFT", "DRF       2", "DRF       3"].map(filled).concat();
    assert_eq!(words(&with(&["3"], &book("drift"))), words(&lines));
    assert_eq!(with(&[], &text), filled("REF       0      51"));
    assert_eq!(with(&[], &[b' '; LONGEST_TEXT + 1]), filled("REF       0       9"));
    assert_eq!(with(&["3"], &[]), filled("WARNINGS OF DRIFT"));
    for example in examples() {
        assert_eq!(words(&with(&["3"], &example.book)), words(&printed(Some("3"), &example.book)), "{}", example.name);
    }
}
