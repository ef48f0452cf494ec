//! The other implementation's reading of lines and writing of points, by itself; the whole reports are compared in reports.rs.

use level_tests::closing::{Closing, Point};
use level_tests::plain::{Answer, Call, Opened, Reading};
use level_tests::generate::short_book;
use level_tests::random::Random;
use level_tests::report::{reduce, report};
use level_tests::text::{number, parse, parse_line, LONGEST_TEXT};
use level_tests::write::{filled, line, line_of, text_of};

#[test]
fn numbers_as_written() {
    let good: [(&[u8; 8], i64); 7] = [
        (b"       0", 0),
        (b"       7", 7),
        (b"      -7", -7),
        (b"99999999", 99_999_999),
        (b"-9999999", -9_999_999),
        (b"      10", 10),
        (b"    -100", -100),
    ];
    for (field, value) in good {
        assert_eq!(number(field), Some(value));
    }
    let bad: [&[u8; 8]; 14] = [
        b"        ",
        b"      -0",
        b"      00",
        b"      07",
        b"     -07",
        b"      +7",
        b"7       ",
        b"      7 ",
        b"     7 7",
        b"     - 7",
        b"       -",
        b"     7-7",
        b"\t      7",
        b"      7\n",
    ];
    for field in bad {
        assert_eq!(number(field), None, "{field:?}");
    }
}

#[test]
fn every_tag_gives_its_call() {
    let station = [4787, 1571, 1197, 1384, 6171, 4687, 739, 363, 551, 5239];
    let opened = |prints| Opened { order: 4, instrument: 3, start: 1, height: 10_000, prints };
    let calls = [
        (line("LIN", &[4, 3, 1, 10_000, 1]), Call::Open(opened(1))),
        (line("LIN", &[4, 3, 1, 10_000, -7]), Call::Open(opened(-7))),
        (line("LIN", &[4, 3, 1, 10_000]), Call::Open(opened(10))),
        (line("SPR", &[4, 3, 1, 10_000, 1]), Call::OpenSpur(opened(1))),
        (line("SPR", &[4, 3, 1, 10_000]), Call::OpenSpur(opened(10))),
        (
            line("STA", &station),
            Call::Station {
                back_k: 4787,
                fore_k: 4687,
                readings: [[1571, 1197, 1384, 6171], [739, 363, 551, 5239]],
            },
        ),
        (line("RUN", &[2]), Call::EndRun(2)),
        (line("DRR", &[]), Call::DropRun),
        (line("DRS", &[]), Call::DropSection),
        (line("END", &[3, -5]), Call::CloseLine { number: 3, height: -5 }),
        (line("FIN", &[3]), Call::CloseSpur(3)),
        (line("ANG", &[1, -2, 3, 4, 5, 99_999_999]), Call::Collimation([1, -2, 3, 4, 5, 99_999_999])),
        (line("KON", &[46_873, -9_999_999]), Call::Constants([46_873, -9_999_999])),
        (line("LFT", &[]), Call::LiftSection),
    ];
    for (written, call) in calls {
        assert_eq!(parse_line(&written.unwrap()), Ok(call));
    }
}

#[test]
fn one_comes_before_two() {
    let cases: [(&str, u8); 39] = [
        ("RUN        ", 2),
        ("RUN       x", 2),
        ("RUN       xx", 1),
        ("RUN       2x", 1),
        ("RUN               2", 1),
        ("RUN", 2),
        ("DRR       1", 1),
        ("run       2", 1),
        ("LEVEL BOOK", 1),
        ("", 1),
        ("END       3", 2),
        ("LIN       4       3       1   10000       x", 2),
        ("LIN       4       3       1   10000      01", 2),
        ("LIN       4       3       1   10000      -0", 2),
        ("LIN       4       3       1   10000 1      ", 2),
        ("LIN       4       3       1   10000       1x", 1),
        ("LIN       4       3       1   10000               1", 1),
        ("LIN       4       3       1   10000       x       1", 1),
        ("LIN       4       3       1              10", 2),
        ("LIN               3       1   10000       1", 2),
        ("SPR       4       3       1   10000       x", 2),
        ("SPR       4       3       1   10000      10       0", 1),
        ("SPR       4       3       1", 2),
        ("SPR", 2),
        ("FIN       3       0", 1),
        ("FIN", 2),
        ("fin       3", 1),
        ("ANG    5937    5951    6043    6067    6800", 2),
        ("ANG            5951    6043    6067    6800   40300", 2),
        ("ANG    5937    5951    6043    6067    6800   40300       0", 1),
        ("ANG    5937    5951    6043    6067    6800   4030O       0", 1),
        ("KON   46873", 2),
        ("KON           47866", 2),
        ("KON  4687.3  4786.6", 2),
        ("KON   46873   47866       0", 1),
        ("kon   46873   47866", 1),
        ("LFT       1", 1),
        ("LFT       x", 1),
        ("lft", 1),
    ];
    for (words, refusal) in cases {
        assert_eq!(parse_line(&filled(words)), Err(refusal), "{words:?}");
    }
    let mut without_feed = filled("DRR");
    without_feed[83] = b' ';
    assert_eq!(parse_line(&without_feed), Err(1));
    assert_eq!(parse_line(&filled("DRR")[..83]), Err(1));
    let mut fed = filled("RUN       2");
    fed[5] = b'\n';
    assert_eq!(parse_line(&fed), Err(2));
    fed[40] = b'\n';
    assert_eq!(parse_line(&fed), Err(1));
}

#[test]
fn a_text_gives_the_calls_it_was_made_from() {
    let mut random = Random::new(21);
    for _ in 0..2_000 {
        let calls = short_book(&mut random, 776);
        let fitting: Vec<&Call> = calls.iter().filter(|call| line_of(call).is_some()).collect();
        let text = text_of(&calls);
        assert!(text.len() <= LONGEST_TEXT);
        let lines = parse(&text).unwrap();
        assert_eq!(lines.len(), fitting.len());
        let mut reading = Reading::fresh();
        let mut refusals = Vec::new();
        let mut closing = None;
        for (at, line) in lines.iter().enumerate() {
            assert_eq!((line.number, line.outcome.as_ref()), (at as i64 + 2, Ok(fitting[at])));
            match reading.apply(fitting[at]) {
                Answer::Refused(number) => refusals.push((line.number, number)),
                Answer::Taken => {}
                Answer::Closed(given) => closing = Some(given),
            }
        }
        let expected = report(&refusals, reading.sections.len(), closing.as_ref());
        assert_eq!(reduce(&text), Ok(expected));
    }
}

/// No text book is long enough to lead below −9,999,999 mm.
#[test]
fn low_heights_and_tenths_take_sixteen_columns() {
    let point = |height| Point { number: 12, distance: 340, correction: -5, height };
    for (prints, printed) in [
        (1, ["-9999999", "       -10000000", "       -39000000", "47000000"]),
        (10, ["        -9999999", "       -10000000", "       -39000000", "        47000000"]),
    ] {
        let points = [-9_999_999, -10_000_000, -39_000_000, 47_000_000].map(point).to_vec();
        let closing = Closing { w: 1, l: 340, n: 3, t: 0, verdict: 0, prints, points };
        let head = ["REDUCED LEVELS", "REF       7      36", "CLO       1     340       3       0       0"].map(filled);
        let points = printed.map(|height| filled(&format!("PNT      12     340      -5{height}")));
        assert_eq!(report(&[(7, 36)], 3, Some(&closing)), [head.concat(), points.concat()].concat());
    }
}

/// A spur of short sections leads there (short_sections.rs), a third-order line does not.
#[test]
fn a_large_t_is_printed_as_eight_nines() {
    let points = vec![Point { number: 12, distance: 0, correction: 0, height: 5 }];
    for (t, printed) in [(0, "       0"), (99_999_998, "99999998"), (99_999_999, "99999999"), (100_000_000, "99999999"), (i64::MAX, "99999999")] {
        let closing = Closing { w: 0, l: 76_800_000, n: 64, t, verdict: 2, prints: 1, points: points.clone() };
        let clo = format!("CLO       076800000      64{printed}       2");
        let expected = ["REDUCED LEVELS", &clo, "PNT      12       0       0       5"].map(filled).concat();
        assert_eq!(report(&[], 64, Some(&closing)), expected);
    }
}
