//! The points for the profile plotter (document 02, W-213): the pairs of closed lines and their differences, by the proved functions and by the other
//! implementation.

use std::process::Command;

use level_tests::both::{profile_in, words};
use level_tests::damage::{rubbish, text_book};
use level_tests::examples::{book, examples, path};
use level_tests::fixed::section;
use level_tests::generate::{line, Kind};
use level_tests::largest::{blank_lines, largest_book, sixty_four_sections};
use level_tests::opening::{closing_call, measured_opening, opening_of, usual, MEASURED};
use level_tests::plain::{Call, Opened};
use level_tests::profile::{bytes_of, printed, LARGEST_WHOLE, PAIR};
use level_tests::programs;
use level_tests::random::Random;
use level_tests::report::read;
use level_tests::rules::Class;
use level_tests::text::LONGEST_TEXT;
use level_tests::write::{filled, text_of};
use levelbook::{difference, profile, Pair, Refusal, PROFILE_ROOM};

/// The whole numbers of a text's pairs, which fit any buffer from their own length on and no shorter one.
fn points(text: &[u8]) -> Vec<[i64; 2]> {
    let pairs = profile_in(text, PROFILE_ROOM).unwrap();
    let points: Vec<[i64; 2]> = profile(text).unwrap().iter().map(|one| [one.distance, one.height].map(whole)).collect();
    assert_eq!(points.iter().flat_map(|&one| bytes_of(one)).collect::<Vec<u8>>(), pairs);
    points
}

/// A float that is a whole number and not −0.
fn whole(float: f64) -> i64 {
    assert_eq!((float as i64 as f64).to_bits(), float.to_bits(), "{float}");
    float as i64
}

fn pair([distance, height]: [i64; 2]) -> Pair {
    Pair { distance: distance as f64, height: height as f64 }
}

/// Case A byte by byte: 0 and 40,000, 2,564 and 42,632, 4,164 and 44,832.
#[test]
fn the_bytes_of_case_a() {
    let expected: [[u8; 8]; 6] = [
        [0, 0, 0, 0, 0, 0, 0, 0],
        [0, 0, 0, 0, 0, 0x88, 0xe3, 0x40],
        [0, 0, 0, 0, 0, 0x08, 0xa4, 0x40],
        [0, 0, 0, 0, 0, 0xd1, 0xe4, 0x40],
        [0, 0, 0, 0, 0, 0x44, 0xb0, 0x40],
        [0, 0, 0, 0, 0, 0xe4, 0xe5, 0x40],
    ];
    let text = book("case-a");
    assert_eq!(profile_in(&text, PROFILE_ROOM), Ok(expected.concat()));
    assert_eq!(points(&text), [[0, 40_000], [2_564, 42_632], [4_164, 44_832]]);
}

/// Raw heights are start plus running Q, whatever the end height and the print unit; with measured constants in fortieths. Heights may be negative, and 0.
#[test]
fn raw_heights() {
    let opened = |height, prints| Opened { height, prints, ..usual(3) };
    for prints in [1, 10] {
        let level = |height: i64, sections: Vec<Call>, last, end| {
            let opening = opening_of(Class::Third, opened(height, prints));
            text_of(&[opening, sections, vec![closing_call(Class::Third, last, end)]].concat())
        };
        for end in [9_999, 10_000, 10_001, 10_003] {
            assert_eq!(points(&level(10_000, section(1, 2, 3, 0), 2, end)), [[0, 40_000], [5_000, 40_003]]);
        }
        let down = [section(1, 2, -7, 3), section(2, 3, 0, -3), section(3, 1, 7, -2)].concat();
        assert_eq!(points(&level(0, down, 1, 0)), [[0, 0], [5_000, -10], [10_000, -7], [15_000, 2]]);
        assert_eq!(points(&level(-999_999, section(1, 2, 0, 0), 2, -999_999)), [[0, -3_999_996], [5_000, -3_999_996]]);
        let spur = [opening_of(Class::Spur, opened(8_999_999, prints)), section(1, 2, 5, -7), vec![Call::CloseSpur(2)]].concat();
        assert_eq!(points(&text_of(&spur)), [[0, 35_999_996], [5_000, 36_000_008]]);
    }
    let measured = [measured_opening(Class::Third, MEASURED), section(1, 2, 3, 0), section(2, 3, -5, 0), vec![closing_call(Class::Third, 3, 9_999)]].concat();
    assert_eq!(points(&text_of(&measured)), [[0, 400_000], [5_000, 400_030], [10_000, 399_980]]);
}

/// A section that was lifted or dropped has no pair.
#[test]
fn the_standing_sections() {
    let rest = [section(2, 7, 100, -100), vec![Call::LiftSection], section(2, 3, -5, 0), vec![closing_call(Class::Third, 3, 10_000)]];
    let calls = [opening_of(Class::Third, usual(3)), section(1, 2, 3, 0), rest.concat()].concat();
    assert_eq!(points(&text_of(&calls)), [[0, 40_000], [5_000, 40_003], [10_000, 39_998]]);
}

/// 65 pairs are 1,040 bytes.
#[test]
fn sixty_four() {
    for class in Class::ALL {
        let text = text_of(&sixty_four_sections(class, 64));
        assert_eq!(points(&text), (0..=64).map(|k| [1_600 * k, 40_000 + 2_200 * k]).collect::<Vec<_>>());
        assert_eq!(points(&largest_book(class)).len() * PAIR, PROFILE_ROOM);
    }
}

/// Every length up to a pair more than all.
#[test]
fn every_buffer() {
    for (text, pairs) in [(book("case-a"), 3), (text_of(&sixty_four_sections(Class::Third, 64)), 65)] {
        for places in 0..=PAIR * (pairs + 1) {
            let written = profile_in(&text, places).map(|bytes| bytes.len());
            assert_eq!(written, if places < PAIR * pairs { Err(56) } else { Ok(PAIR * pairs) }, "{places} bytes");
        }
        profile_in(&text, 1 << 20).unwrap();
    }
}

/// A fresh line and an open one have none in any buffer; 9 comes before.
#[test]
fn lines_that_are_not_closed() {
    let whole = book("case-a");
    let closing = whole.len() - 84;
    for text in [&b""[..], b"LEVEL BOOK", &whole[..84], &whole[..closing], &whole[84..], &whole[..whole.len() - 1], &blank_lines()] {
        for places in [0, 15, 16, 47, 48, PROFILE_ROOM, 1 << 16] {
            assert_eq!(profile_in(text, places), Err(56), "{places} bytes, {}", words(text));
        }
    }
    let too_long = [&largest_book(Class::Third)[..], b" "].concat();
    for places in [0, PROFILE_ROOM - 1, PROFILE_ROOM] {
        assert_eq!(profile_in(&too_long, places), Err(9));
    }
    assert_eq!(profile(&too_long), Err(Refusal::TextTooLong));
    assert_eq!(profile(&whole[..closing]), Err(Refusal::Profile));
}

/// Random texts, most of them closed. The differences of neighbours are Q and R.
#[test]
fn ten_thousand_books() {
    let mut random = Random::new(213);
    let (mut closed, mut negative, mut measured, mut spurs) = (0, 0, 0, 0);
    for _ in 0..10_000 {
        let text = text_book(&mut random);
        let Ok(bytes) = profile_in(&text, PROFILE_ROOM) else { continue };
        if bytes.len() > PAIR {
            assert_eq!(profile_in(&text, random.below(bytes.len() as u64) as usize), Err(56));
        }
        let (points, reading) = (profile(&text).unwrap(), read(&text).unwrap().reading);
        let steps: Vec<Pair> = points.windows(2).map(|two| difference(two[0], two[1])).collect();
        let sections: Vec<Pair> = reading.sums_of_sections().into_iter().map(|(q, r)| pair([r, q])).collect();
        assert_eq!(steps, sections, "{}", words(&text));
        closed += 1;
        negative += u64::from(points.iter().any(|one| one.height < 0.0));
        measured += u64::from(reading.staffs.parts() == 10);
        spurs += u64::from(reading.class == Some(Class::Spur));
    }
    println!("{closed} closed, {negative} below 0, {measured} with measured constants, {spurs} spurs");
    assert!(closed >= 1_500 && negative >= 150 && measured >= 400 && spurs >= 400, "{closed} {negative} {measured} {spurs}");
    for _ in 0..1_000 {
        assert_eq!(profile_in(&rubbish(&mut random, 2_000), PROFILE_ROOM), Err(56));
    }
}

/// Of whole numbers whose difference is one that a binary64 has; nothing less nothing is 0 and not −0.
#[test]
fn differences() {
    let mut random = Random::new(2_130);
    let largest = LARGEST_WHOLE;
    let fixed = [[0, 0], [largest, -largest], [3_600_000_000, -3_600_000_000], [1, -1]];
    let anything = (0..100_000).map(|_| [(); 2].map(|()| random.between(-largest / 2, largest / 2) >> random.below(53))).collect::<Vec<_>>();
    for from in fixed.iter().copied().chain(anything.iter().copied()) {
        let to = *random.pick(&anything);
        if from.iter().zip(to).any(|(one, other)| (other - one).abs() > largest) {
            continue;
        }
        for (from, to) in [(from, to), (to, from), (from, from)] {
            let step = difference(pair(from), pair(to));
            assert_eq!([step.distance, step.height].map(whole), [to[0] - from[0], to[1] - from[1]]);
        }
    }
}

/// The program prints the pairs, or one line with the refusal.
#[test]
fn the_program() {
    for example in examples() {
        assert_eq!(programs::printed("profile", &[], &example.book), printed(&example.book), "{}", example.name);
    }
    let mut random = Random::new(2_131);
    for kind in [Kind::Usual, Kind::Loop, Kind::Verdict, Kind::Many] {
        let text = text_of(&line(&mut random, kind));
        assert_eq!(programs::printed("profile", &[], &text), printed(&text), "{kind:?}");
    }
    let closed = largest_book(Class::Fourth);
    assert_eq!(programs::printed("profile", &[], &closed).len(), PROFILE_ROOM);
    assert_eq!(programs::printed("profile", &[], &[]), filled("REF       0      56"));
    assert_eq!(programs::printed("profile", &[], &[b' '; LONGEST_TEXT]), filled("REF       0      56"));
    assert_eq!(programs::printed("profile", &[], &[&closed[..], b" "].concat()), filled("REF       0       9"));
    assert_eq!(programs::printed("profile", &[], &vec![b' '; 1 << 20]), filled("REF       0       9"));
}

/// Nothing is printed where the input cannot be read to its end.
#[test]
fn an_input_that_cannot_be_read() {
    let folder = std::fs::File::open(path("examples")).expect("a folder");
    let output = Command::new(programs::program("profile")).stdin(folder).output().expect("the program runs");
    assert_eq!((output.stdout, output.stderr, output.status.code()), (vec![], vec![], Some(0)));
}

/// The picture of the examples is the one that the tool makes.
#[test]
fn the_picture() {
    let report = std::fs::File::open(path("examples/loop.report")).expect("the report");
    let output = Command::new(path("tools/profile")).args(["-t", "Loop"]).stdin(report).output().expect("the tool runs");
    let picture = std::fs::read(path("examples/loop.svg")).expect("the picture");
    assert_eq!((words(&output.stdout), output.status.code()), (words(&picture), Some(0)));
}
