//! The report of a text book by the proved function, compared byte for byte with the other implementation's.
use std::collections::BTreeMap;

use level_tests::both::{report, report_in, words};
use level_tests::damage::{damage, rubbish, text_book};
use level_tests::examples::{book, examples};
use level_tests::generate::{line, Kind};
use level_tests::largest::{after_heading, blank_lines, largest_book, refused_late, sixty_four_sections};
use level_tests::mutate::any_call;
use level_tests::opening::{opening, usual, MEASURED, TABLE_B7};
use level_tests::plain::{Call, Opened};
use level_tests::random::Random;
use level_tests::rules::Class;
use level_tests::text::{number, LINE, LONGEST_TEXT};
use level_tests::write::{filled, heading, line_of, text_of};

/// The report's lines, each filled with blanks to 83 columns.
fn pages(lines: &[&str]) -> Vec<u8> {
    lines.iter().flat_map(|one| filled(one)).collect()
}

/// Field k of a report's line, counted from 0.
fn field(line: &[u8], k: usize) -> i64 {
    number(&line[3 + 8 * k..11 + 8 * k]).expect("a figure of the report")
}

#[test]
fn the_examples() {
    for example in examples() {
        assert_eq!(words(&report(&example.book).unwrap()), words(&example.report), "{}", example.name);
    }
}

#[test]
fn twenty_thousand_books() {
    let mut random = Random::new(20_261_117);
    let mut refusals = BTreeMap::<i64, u64>::new();
    let mut verdicts = BTreeMap::<(bool, i64), u64>::new();
    let (mut large, mut whole, mut tenths) = (0, 0, 0);
    for _ in 0..20_000 {
        let mut text = text_book(&mut random);
        if random.chance(1, 8) {
            for _ in 0..random.below(20) {
                damage(&mut random, &mut text);
            }
        }
        let Ok(report) = report(&text) else { continue };
        let spur = text.chunks(LINE).map(|one| &one[..one.len().min(3)]).find(|&one| one == b"LIN" || one == b"SPR") == Some(b"SPR");
        for line in report.chunks(LINE) {
            match &line[..3] {
                b"REF" => *refusals.entry(field(line, 1)).or_default() += 1,
                b"CLO" => {
                    *verdicts.entry((spur, field(line, 4))).or_default() += 1;
                    large += u64::from(field(line, 3) == 99_999_999);
                }
                b"PNT" if line[27..35] == [b' '; 8] => tenths += 1,
                b"PNT" => whole += 1,
                _ => {}
            }
        }
    }
    println!("spur first  verdict  closed");
    verdicts.iter().for_each(|((spur, verdict), count)| println!("{spur:10} {verdict:8} {count:7}"));
    println!("{large} with a T above 99,999,999, {whole} heights in whole mm, {tenths} in tenths\nrefusal  text lines");
    (1..=57).for_each(|number| println!("{number:7} {:11}", refusals.get(&number).unwrap_or(&0)));
    assert!(refusals.keys().copied().eq((1..=8).chain(21..=36).chain(41..=46).chain([53, 57])), "{refusals:?}");
    assert!((41..=46).chain([53, 57]).all(|number| refusals[&number] >= 500), "too few: {refusals:?}");
    assert_eq!(verdicts.len(), 6, "each verdict of lines and of spurs: {verdicts:?}");
    assert!(large >= 10, "too few of a large T: {large}");
    assert!(whole >= 10_000 && tenths >= 10_000, "too few of a print unit: {whole}, {tenths}");
}

#[test]
fn rubbish_with_and_without_a_heading() {
    let mut random = Random::new(23);
    let refused = pages(&["REDUCED LEVELS", "REF       1       1", "OPN       0"]);
    for _ in 0..1_000 {
        let mut text = rubbish(&mut random, 2_000);
        assert_eq!(report(&text), Ok(refused.clone()));
        text.splice(0..0, heading());
        report(&text).unwrap();
    }
}

#[test]
fn the_first_line() {
    let refused = Ok(pages(&["REDUCED LEVELS", "REF       1       1", "OPN       0"]));
    let whole = book("case-a");
    for text in [&b""[..], &whole[..83], &whole[84..], &[b' '; 84], &[b'x'; LONGEST_TEXT], b"LEVEL BOOK\n"] {
        assert_eq!(report(text), refused, "{}", words(text));
    }
    for other in ["level book", "LEVEL  BOOK", " LEVEL BOOK", "LEVEL BOOKS", "LEVEL BOOK 2", "REDUCED LEVELS", "LIN       4       3       1"] {
        assert_eq!(report(&[&filled(other), &whole[84..]].concat()), refused, "{other}");
    }
    assert_eq!(report(&heading()), Ok(pages(&["REDUCED LEVELS", "OPN       0"])));
    assert_eq!(report(&[heading(), whole].concat()).unwrap()[84..168], filled("REF       2       1"));
}

#[test]
fn sixty_four_sections_in_a_text() {
    for (class, closing, last) in [
        (Class::Third, "CLO      40  102400      64       0       1", "PNT      65  102400       0   45190"),
        (Class::Fourth, "CLO      40  102400      64       0       0", "PNT      65  102400       0   45190"),
        (Class::Spur, "CLO       0  102400      64       0       1", "PNT      65  102400       0   45200"),
    ] {
        let report = report(&text_of(&sixty_four_sections(class, 64))).unwrap();
        assert_eq!(report.len(), 67 * LINE);
        assert_eq!(words(&report[LINE..2 * LINE]), words(&filled(closing)));
        assert_eq!(words(&report[3 * LINE..4 * LINE]), words(&filled("PNT       2    1600       0   10550")));
        assert_eq!(words(&report[66 * LINE..]), words(&filled(last)));
    }
}

/// 777 lines: all refused but the heading; all taken; 64 sections with refused lines before the end; and any calls after a long line's.
#[test]
fn the_largest_text() {
    let [order_5, ang, kon] = [Call::Open(usual(5)), Call::Collimation(TABLE_B7), Call::Constants(MEASURED)].map(|call| line_of(&call).unwrap());
    let hundredths = line_of(&Call::Open(Opened { prints: 100, ..usual(4) })).unwrap();
    for (line, refusal) in [(filled(""), 1), (filled("RUN"), 2), (order_5, 3), (hundredths, 57), (filled("DRR"), 21), (filled("LFT"), 21), (filled("FIN       1"), 21), (ang, 21), (kon, 43)] {
        let text = after_heading(&line);
        assert_eq!(text.len(), LONGEST_TEXT);
        let report = report(&text).unwrap();
        assert_eq!(report.len(), 778 * LINE);
        assert_eq!(report[776 * LINE..777 * LINE], filled(&format!("REF     777{refusal:>8}")));
    }
    for class in Class::ALL {
        assert_eq!(report(&largest_book(class)).unwrap().len(), 67 * LINE);
        let report = report(&refused_late(class)).unwrap();
        assert_eq!(report.len(), (67 + 776 - sixty_four_sections(class, 64).len()) * LINE);
    }
    let mut random = Random::new(24);
    for _ in 0..200 {
        let kind = *random.pick(&[Kind::Many, Kind::Long, Kind::Verdict, Kind::Loop]);
        let mut calls = line(&mut random, kind);
        calls.retain(|call| line_of(call).is_some());
        while calls.len() < 776 {
            let call = any_call(&mut random);
            if line_of(&call).is_some() {
                let place = random.below(calls.len() as u64 + 1) as usize;
                calls.insert(place, call);
            }
        }
        calls.truncate(776);
        report(&text_of(&calls)).unwrap();
    }
}

/// Every length up to 300 bytes and about the longest, of a book that is cut, of blanks, and of a heading with rubbish behind it.
#[test]
fn every_length() {
    let mut random = Random::new(25);
    let mut long = text_of(&sixty_four_sections(Class::Fourth, 64));
    while long.len() < 65_400 {
        long.extend(filled("DRR"));
    }
    let mut after_heading = heading();
    after_heading.extend((0..65_400).map(|_| random.next() as u8));
    let blanks = vec![b' '; 65_400];
    for length in (0..=300).chain(65_200..=65_350) {
        for text in [&long, &after_heading, &blanks] {
            let report = report(&text[..length]);
            assert_eq!(report.err(), (length > LONGEST_TEXT).then_some(9), "{length} bytes");
        }
    }
}

#[test]
fn every_buffer() {
    let largest = blank_lines();
    let too_long = [&largest[..], b" "].concat();
    let far_too_long = vec![b' '; 1 << 20];
    for text in [b"".to_vec(), book("case-a"), largest] {
        for places in [0, 1, 83, 84, 5 * LINE, 65_352, 65_534, 65_535] {
            assert_eq!(report_in(&text, places), Err(10), "{places} bytes");
        }
        for places in [65_536, 65_537, 65_620, 131_072, 1 << 20] {
            report_in(&text, places).unwrap();
        }
    }
    for text in [too_long, far_too_long] {
        for places in [0, 1, 65_535, 65_536, 65_537, 1 << 20] {
            assert_eq!(report_in(&text, places), Err(9), "{places} bytes");
        }
    }
}

#[test]
fn line_feeds_missing_doubled_or_others() {
    for whole in [book("case-a"), book("section-dropped"), text_of(&sixty_four_sections(Class::Third, 64))] {
        for feed in (83..whole.len()).step_by(LINE) {
            for other in [&b""[..], b"\n\n", b" ", b"\r", b"\r\n", b"\n\r", b"\0", b" \n", b"\n "] {
                let mut text = whole.clone();
                text.splice(feed..=feed, other.iter().copied());
                report(&text).unwrap();
            }
        }
        for other in ["", "\n\n", "\r\n", "\r"] {
            report(words(&whole).replace('\n', other).as_bytes()).unwrap();
        }
    }
}

/// A byte changed, put in and taken out at every place.
#[test]
fn bytes_at_every_place() {
    let whole = book("case-a");
    for place in 0..whole.len() {
        for byte in *b"\0\xff \n\r\t-+.019ASk\x7f\x80\xa0" {
            let mut text = whole.clone();
            text[place] = byte;
            report(&text).unwrap();
            text.insert(place, whole[place]);
            report(&text).unwrap();
        }
        let mut text = whole.clone();
        text.remove(place);
        report(&text).unwrap();
    }
}

/// All 256 bytes at every place of a short text.
#[test]
fn all_bytes() {
    let whole = text_of(&[opening(Class::Fourth), vec![Call::CloseLine { number: 1, height: -9_999 }]].concat());
    for place in 0..whole.len() {
        for byte in 0..=255 {
            let mut text = whole.clone();
            text[place] = byte;
            report(&text).unwrap();
        }
    }
}
