//! The adjustment call, compared with the other implementation; and its promises, checked in exact fractions.
use std::collections::BTreeMap;

use level_tests::adjust::{adjust, corrections, exact_height, heights, keeps_promises, Units};
use level_tests::lent::{any, sound, Lent};
use level_tests::random::Random;
use levelbook::raw::level_adjust;
use levelbook::{Leg, PrintUnit, Refusal};

/// A section as both take it: Q and R.
type Section = (i64, i64);

/// Both print units.
const PRINTS: [i64; 2] = [1, 10];

/// A height list whose places all differ, so that a place that is not kept shows.
fn list_of(places: usize) -> Vec<i64> {
    (0..places as i64).map(|k| 1_000_000_007 * (k + 1)).collect()
}

/// The proved call, whose print unit may be any number; the package's, which has no others, gives the same.
fn proved(start: i64, end: i64, prints: i64, sections: &[Section], heights: &mut [i64]) -> u8 {
    let legs: Vec<Leg> = sections.iter().map(|&(height, distance)| Leg { height, distance }).collect();
    let unit = [PrintUnit::Millimetre, PrintUnit::Tenth].into_iter().find(|&one| one as i64 == prints);
    let typed = unit.map(|unit| {
        let mut list = heights.to_vec();
        (levelbook::adjust(start, end, unit, &legs, &mut list).map_or_else(Refusal::number, |()| 0), list)
    });
    // SAFETY: as in `levelbook::adjust`.
    let number = unsafe { level_adjust(legs.as_ptr(), legs.len(), start, end, prints, heights.as_mut_ptr(), heights.len()) };
    typed.inspect(|typed| assert_eq!(*typed, (number, heights.to_vec())));
    number
}

/// Both calls on the same list: the number, which is 0 where they are taken, and the list after them.
fn compare(lent: &Lent) -> (u8, Vec<i64>) {
    let Lent { start, end, prints, sections, places } = lent;
    let (mut expected, mut given) = (list_of(*places), list_of(*places));
    let number = adjust(*start, *end, *prints, sections, &mut expected).err().unwrap_or(0);
    assert_eq!(proved(*start, *end, *prints, sections, &mut given), number, "{lent:?}");
    assert_eq!(given, expected, "{lent:?}");
    if number != 0 {
        assert_eq!(given, list_of(*places), "{lent:?}: refusal {number} touched the list");
        return (number, given);
    }
    let (heights, further) = given.split_at(sections.len());
    assert_eq!(further, &list_of(*places)[sections.len()..], "{lent:?}: further places");
    let units = Units::quarters(*prints);
    let corrections = corrections(units, *start, sections, heights);
    assert_eq!(keeps_promises(units, *start, Some(*end), sections, heights, &corrections), Ok(()), "{lent:?}");
    (number, given)
}

/// The number in whole mm, which is the same in tenths.
fn number_of(start: i64, end: i64, sections: &[Section], places: usize) -> u8 {
    let [number, tenths] = PRINTS.map(|prints| compare(&Lent { start, end, prints, sections: sections.to_vec(), places }).0);
    assert_eq!(tenths, number, "{start} {end} {sections:?} {places}");
    number
}

/// The height list of a call that is taken.
fn heights_in(prints: i64, start: i64, end: i64, sections: &[Section]) -> Vec<i64> {
    let (number, heights) = compare(&Lent { start, end, prints, sections: sections.to_vec(), places: sections.len() });
    assert_eq!(number, 0, "{start} {end} {sections:?}");
    heights
}

/// In whole mm; in tenths the last one is the same height.
fn heights_of(start: i64, end: i64, sections: &[Section]) -> Vec<i64> {
    assert_eq!(heights_in(10, start, end, sections).last(), Some(&(10 * end)));
    heights_in(1, start, end, sections)
}

#[test]
fn lists_of_every_size() {
    for count in [0usize, 1, 2, 63, 64, 65, 66, 1_000] {
        let sections: Vec<Section> = (0..count as i64).map(|k| (37 * k - 900, 1 + 13 * k)).collect();
        for places in [0, 1, count.saturating_sub(1), count, count + 1, count + 7] {
            let expected = match count {
                0 | 65.. => 11,
                _ if places < count => 13,
                _ => 0,
            };
            assert_eq!(number_of(-250, 1_250, &sections, places), expected, "{count} sections, {places} places");
        }
    }
}

/// Whatever the sections beyond 64 are, and whatever else is wrong.
#[test]
fn more_than_64_sections() {
    for section in [(0, 1), (0, 0), (i64::MIN, i64::MIN), (i64::MAX, i64::MAX)] {
        for count in [65, 128, 1_000] {
            assert_eq!(number_of(i64::MAX, i64::MIN, &vec![section; count], 0), 11);
            assert_eq!(number_of(0, 0, &vec![section; count], count), 11);
        }
    }
}

#[test]
fn q_and_r_at_and_beyond_their_bounds() {
    let inside = [(2_500_000, 1), (-2_500_000, 1), (0, 1_200_000), (2_500_000, 1_200_000), (-2_500_000, 1_200_000)];
    let most = i64::MAX;
    let outside = [
        (2_500_001, 1), (-2_500_001, 1), (most, 1), (-most, 1), (i64::MIN, 1),
        (0, 0), (0, -1), (0, 1_200_001), (0, most), (0, -most), (0, i64::MIN),
    ];
    for count in [1, 2, 63, 64] {
        for at in [0, count / 2, count - 1] {
            for (list, expected) in [(&inside[..], 0), (&outside[..], 12)] {
                for &section in list {
                    let mut sections = vec![(100, 200); count];
                    sections[at] = section;
                    assert_eq!(number_of(5_000, 4_000, &sections, count), expected, "{section:?} at {at} of {count}");
                }
            }
        }
    }
}

/// The largest figures: 64 sections, each at its bounds, between heights at theirs.
#[test]
fn all_at_their_bounds() {
    for start in [-999_999, 8_999_999] {
        for end in [-999_999, 8_999_999] {
            for section in [(2_500_000, 1_200_000), (-2_500_000, 1_200_000), (2_500_000, 1), (-2_500_000, 1)] {
                assert_eq!(heights_of(start, end, &[section; 64])[63], end);
            }
        }
    }
}

#[test]
fn known_heights_at_and_beyond_their_bounds() {
    let sections = [(100, 200), (-50, 300)];
    let heights = [
        (-999_999, true), (8_999_999, true), (0, true), (-1_000_000, false), (9_000_000, false), (i64::MIN, false), (i64::MAX, false),
    ];
    for (start, start_allowed) in heights {
        for (end, end_allowed) in heights {
            let expected = if start_allowed && end_allowed { 0 } else { 5 };
            assert_eq!(number_of(start, end, &sections, 2), expected, "{start} to {end}");
        }
    }
}

/// Any number but 1 and 10.
#[test]
fn other_print_units() {
    for prints in [0, 2, 5, 9, 11, 100, 1_000, -1, -10, 257, 266, (1 << 32) + 1, (1 << 32) + 10, i64::MIN, i64::MAX] {
        assert_eq!(compare(&Lent { start: 0, end: 10, prints, sections: vec![(40, 7)], places: 1 }).0, 57, "{prints}");
    }
}

/// 11 before 13 before 12 before 5 before 57.
#[test]
fn refusals_in_their_order() {
    let (high, good, bad) = (9_000_000, (100, 200), (100, 0));
    assert_eq!(number_of(high, high, &[], 0), 11);
    assert_eq!(number_of(high, high, &[bad; 65], 64), 11);
    assert_eq!(number_of(high, high, &[bad; 2], 1), 13);
    assert_eq!(number_of(0, 0, &[good; 2], 1), 13);
    assert_eq!(number_of(high, high, &[good, bad], 2), 12);
    assert_eq!(number_of(0, 0, &[good, bad], 2), 12);
    assert_eq!(number_of(high, high, &[good; 2], 2), 5);
    assert_eq!(number_of(0, 0, &[good; 2], 2), 0);
    for (sections, places, end, number) in [(vec![], 0, high, 11), (vec![bad; 2], 1, high, 13), (vec![bad; 2], 2, high, 12), (vec![good; 2], 2, high, 5), (vec![good; 2], 2, 0, 57)] {
        assert_eq!(compare(&Lent { start: 0, end, prints: 0, sections, places }).0, number);
    }
}

#[test]
fn further_places_keep_their_values() {
    for (prints, expected) in [(1, [10_657, 11_206]), (10, [106_568, 112_060])] {
        let (number, heights) = compare(&Lent { start: 10_000, end: 11_206, prints, sections: vec![(2_632, 2_564), (2_200, 1_600)], places: 5 });
        assert_eq!((number, &heights[..2]), (0, &expected[..]));
        assert_eq!(heights[2..], list_of(5)[2..]);
    }
}

/// The middle of two equal sections lies half way: a tie, which goes to the even height.
#[test]
fn heights_at_a_tie() {
    let twice = [(2_200, 1_600), (2_200, 1_600)];
    assert_eq!(heights_of(10_000, 11_099, &twice), [10_550, 11_099]);
    assert_eq!(heights_of(10_001, 11_100, &twice), [10_550, 11_100]);
    for (start, end, middle) in [(-1, 0, 0), (-2, -1, -2), (-3, -2, -2), (1, 2, 2), (0, 1, 0), (2, 3, 2)] {
        assert_eq!(heights_of(start, end, &[(0, 7), (0, 7)]), [middle, end], "{start} to {end}");
    }
}

/// In tenths the middle of these is exact; a quarter of the way is a tie where it is 2.5 or 7.5 tenths, which goes to the even tenth.
#[test]
fn heights_at_a_tie_in_tenths() {
    let twice = [(2_200, 1_600), (2_200, 1_600)];
    assert_eq!(heights_in(10, 10_000, 11_099, &twice), [105_495, 110_990]);
    assert_eq!(heights_in(10, 10_001, 11_100, &twice), [105_505, 111_000]);
    assert_eq!(heights_in(10, 10_000, 12_199, &[(2_200, 1_600); 4]), [105_498, 110_995, 116_492, 121_990]);
    for (start, end, tenths) in [(0, 1, [2, 5, 8, 10]), (0, -1, [-2, -5, -8, -10]), (1, 0, [8, 5, 2, 0]), (-1, 0, [-8, -5, -2, 0]), (0, 3, [8, 15, 22, 30])] {
        assert_eq!(heights_in(10, start, end, &[(0, 7); 4]), tenths, "{start} to {end}");
    }
}

#[test]
fn negative_heights() {
    assert_eq!(heights_of(-10_000, -11_206, &[(-2_632, 2_564), (-2_200, 1_600)]), [-10_657, -11_206]);
    for start in [-999_999, -1_000, -3, -2, -1, 0] {
        for end in [-999_998, -1_001, -2, -1, 0, 1] {
            heights_of(start, end, &[(-9, 3), (4, 5), (-1, 1), (2, 11)]);
        }
    }
}

#[test]
fn a_hundred_thousand_random_lines() {
    let seed = 20_263;
    println!("seed {seed}");
    let mut random = Random::new(seed);
    let (mut met, mut ties) = (BTreeMap::new(), [0; 2]);
    for round in 0..100_000 {
        let lent = if round % 2 == 0 { sound(&mut random) } else { any(&mut random) };
        let number = compare(&lent).0;
        *met.entry(number).or_insert(0) += 1;
        if number == 0 {
            let Lent { start, end, prints, sections, .. } = lent;
            let exact = (1..=sections.len()).map(|k| exact_height(Units::quarters(prints), start, Some(end), &sections, k));
            ties[usize::from(prints == 10)] += exact.filter(|(n, d)| 2 * (i128::from(prints) * n).rem_euclid(*d) == *d).count();
        }
    }
    println!("{met:?}, {ties:?} heights at a tie in whole mm and in tenths");
    assert_eq!(met.keys().copied().collect::<Vec<u8>>(), [0, 5, 11, 12, 13, 57]);
    assert!(ties.iter().all(|&ties| ties > 1_000), "{ties:?} heights at a tie");
}

/// The formulas keep the promises in every print unit that a mm is a whole number of, which the calls do not print.
#[test]
fn every_print_unit() {
    let mut random = Random::new(214);
    for round in 0..20_000 {
        let Lent { start, end, sections, .. } = sound(&mut random);
        let end = (round % 3 > 0).then_some(end);
        let most = *random.pick(&[3, 12, 1_000]);
        let units = Units { kept: *random.pick(&[4, 40]), printed: random.between(1, most).into() };
        let heights = heights(units, start, end, &sections);
        let corrections = corrections(units, start, &sections, &heights);
        assert_eq!(keeps_promises(units, start, end, &sections, &heights, &corrections), Ok(()), "{units:?}");
    }
}
