//! Very short sections (document 02, W-201): for D an R below 2,000 counts as 2,000, for all else it does not. Worked lists of calls, each run by the proved
//! book and by the other implementation.

use level_tests::both::{after, figures, report, words};
use level_tests::fixed::{run_with, section_of as section, FIRST};
use level_tests::fraction::within;
use level_tests::generate::book;
use level_tests::opening::{closing_call, opening};
use level_tests::plain::{Answer, Call, Reading};
use level_tests::random::Random;
use level_tests::rules::Class;
use level_tests::station::sum_of_sights;
use level_tests::write::{filled, text_of};

/// What the end of a return answers for this R and D.
fn ended(class: Class, r: i64, d: i64) -> u8 {
    let mut calls = [opening(class), section(1, r, 700, d - 700)].concat();
    let end = calls.pop().expect("the end of the return");
    after(&calls, &[end])[0]
}

/// The largest D is the same from R 16, the smallest of four stations, on: 7 at third order as long as 18 R is below 625 × 8², 12 on a spur as long as 2 R is
/// below 25 × 13². By the root alone D 7 would begin at R 1,702, and D 12 at R 1,800.
#[test]
fn d_of_short_sections() {
    for (class, largest, root, rises) in [(Class::Third, 7, 1_702, 2_223), (Class::Spur, 12, 1_800, 2_113)] {
        for r in [16, 17, 1_200, root - 1, root, 1_999, 2_000, 2_001, rises - 1] {
            let answers = [largest, -largest, largest + 1, -largest - 1].map(|d| ended(class, r, d));
            assert_eq!(answers, [0, 0, 32, 32], "{class:?}, R {r}");
        }
        assert_eq!([largest + 1, largest + 2].map(|d| ended(class, rises, d)), [0, 32], "{class:?}, R {rises}");
    }
}

/// L 16 has a W of at most 1, where 2,000 would have one of 15; at fourth order 2 and 25.
#[test]
fn closures_keep_the_true_length() {
    let short = [opening(Class::Third), section(1, 16, 7, 0)].concat();
    assert_eq!(after(&short, &[10_001, 10_002].map(|height| closing_call(Class::Third, 2, height))), [36, 0]);
    let fourth = [opening(Class::Fourth), run_with(FIRST, 2, 8, 700), vec![Call::EndRun(2)]].concat();
    assert_eq!(after(&fourth, &[10_349, 10_350].map(|height| closing_call(Class::Fourth, 2, height))), [36, 0]);
}

/// W 12 over R 16 and 1,984: a share of 0.1 and one of 11.9 quarter mm, where equal weights would give 1.5 mm to each.
#[test]
fn weights_keep_the_true_length() {
    let figures = figures(&[opening(Class::Third), section(1, 16, 0, 0), section(2, 1_984, 0, 0), vec![closing_call(Class::Third, 3, 9_997)]].concat());
    assert_eq!(figures[..5], [12, 2_000, 2, 0, 0]);
    assert_eq!(figures[10..22], [1, 0, 0, 10_000, 2, 16, 0, 10_000, 3, 2_000, -12, 9_997]);
}

/// Sections whose D is all out in one and all back in the next, so that the line is as high at its end.
fn up_and_down(class: Class, sections: &[(i64, i64)]) -> Vec<Call> {
    let mut calls = opening(class);
    for (&(r, d), from) in sections.iter().zip(1..) {
        let (out, back) = if from % 2 == 1 { (d, 0) } else { (0, d) };
        calls.extend(section(from, r, out, back));
    }
    calls.push(closing_call(class, sections.len() as i64 + 1, 10_000));
    calls
}

/// 64 sections of R 16 with the largest D: t is 500,000 × 7² / 16 = 1,531,250, on a spur 500,000 × 12² / 16 = 4,500,000. A third-order T just fits CLO.
#[test]
fn the_largest_t() {
    for (class, d, t, closing, up) in [
        (Class::Third, 7, 98_000_000, "CLO       0    1024      6498000000       2", (1, 10_002)),
        (Class::Spur, 12, 288_000_000, "CLO       0    1024      6499999999       2", (0, 10_003)),
    ] {
        let calls = up_and_down(class, &[(16, d); 64]);
        assert_eq!(figures(&calls)[..5], [0, 1_024, 64, t, 2]);
        let mut expected = ["REDUCED LEVELS", closing, "PNT       1       0       0   10000"].map(filled).concat();
        for k in 1..=64 {
            let (correction, height) = if k % 2 == 1 { up } else { (-up.0, 10_000) };
            expected.extend(filled(&format!("PNT{:8}{:8}{correction:8}{height:8}", k + 1, 16 * k)));
        }
        assert_eq!(words(&report(&text_of(&calls)).unwrap()), words(&expected));
    }
}

/// A T about the largest that CLO prints as it is; the figures have it whole.
#[test]
fn t_about_eight_nines() {
    let others = [&[(16, 8); 49][..], &[(40, 12), (500, 10), (200, 6)]].concat();
    for (r, t, printed) in [(7_202, 99_999_997, "99999997"), (7_201, 99_999_999, "99999999"), (7_200, 100_000_000, "99999999")] {
        let calls = up_and_down(Class::Spur, &[&others[..], &[(r, 12)]].concat());
        assert_eq!(figures(&calls)[..5], [0, 1_524 + r, 53, t, 2]);
        let closing = filled(&format!("CLO       0{:8}      53{printed}       2", 1_524 + r));
        assert_eq!(words(&report(&text_of(&calls)).unwrap()[84..168]), words(&closing));
    }
}

/// The random lists come to both sides of the limit: sections that stand beyond the root of their R, and returns that are refused though they are short.
#[test]
fn what_the_random_lists_meet() {
    let mut random = Random::new(201);
    let (mut stand, mut refused) = (0, 0);
    for _ in 0..5_000 {
        let mut reading = Reading::fresh();
        for call in book(&mut random) {
            refused += u64::from(reading.apply(&call) == Answer::Refused(32) && length_in_work(&reading) < 2_000);
        }
        let class = reading.class;
        let (staffs, parts) = (reading.staffs, reading.staffs.parts());
        let beyond = |d, r| class.and_then(|class| class.terms().both_ways).is_some_and(|set| !within(set.agree.0, d, parts * parts * set.agree.1, r));
        stand += reading.sections.iter().filter(|one| one.d(staffs).is_some_and(|d| beyond(d, one.r()))).count() as u64;
    }
    assert!(stand >= 1_000 && refused >= 500, "{stand} stand, {refused} are refused");
}

/// R of the section whose return is in work.
fn length_in_work(reading: &Reading) -> i128 {
    let outward = reading.waiting.as_ref().map_or(&[][..], |waiting| &waiting.outward);
    sum_of_sights(outward) + sum_of_sights(&reading.run)
}
