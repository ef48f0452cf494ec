//! A run shot again (document 02, W-209), judged by the proved function and by the other implementation.

use std::collections::BTreeMap;
use std::path::Path;
use std::process::{Command, Output};

use level_tests::both::judged;
use level_tests::examples::book;
use level_tests::fixed::{faces, run_of, run_with, station, FIRST, SECOND};
use level_tests::plain::Call;
use level_tests::programs::program;
use level_tests::random::Random;
use level_tests::repeat::{printed, Given, Judgement};
use level_tests::rules::Class;
use level_tests::text::{LINE, LONGEST_TEXT};
use level_tests::write::{filled, heading, line_of};
use Judgement::{Mean, New, Opposite};

/// A text of lines without a heading.
fn lines(calls: &[Call]) -> Vec<u8> {
    calls.iter().flat_map(|call| line_of(call).expect("a line")).collect()
}

/// A run of two stations with this s and G.
fn run(s: i64, g: i64) -> Vec<u8> {
    lines(&run_with(FIRST, 2, s, g))
}

fn given(class: Class, s: i64, g: i64) -> Given {
    Given { order: class.order(), instrument: 3, g, s }
}

/// What is judged of an old, a new and an opposite run with these G, the old one and the opposite one with half of R each.
fn of(class: Class, r: i64, [old, new, g]: [i64; 3]) -> Judgement {
    judged(&run(r / 2, old), &run(2_000, new), given(class, r - r / 2, g)).unwrap()
}

/// Class, R, the largest difference within the limit, and the largest twice a mean. 625 × 12² = 18 × 5,000 and 25 × 20² = 2 × 5,000. An R below 2,000 counts as 2,000.
const LIMITS: [(Class, i64, i64, i64); 12] = [
    (Class::Third, 16, 7, 15),
    (Class::Third, 1_999, 7, 15),
    (Class::Third, 2_000, 7, 15),
    (Class::Third, 2_564, 8, 17),
    (Class::Third, 4_999, 11, 23),
    (Class::Third, 5_000, 12, 24),
    (Class::Spur, 16, 12, 25),
    (Class::Spur, 1_999, 12, 25),
    (Class::Spur, 2_000, 12, 25),
    (Class::Spur, 2_564, 14, 28),
    (Class::Spur, 4_999, 19, 39),
    (Class::Spur, 5_000, 20, 40),
];

/// Every difference of new and old, and of new and opposite, to beyond the limits: cases a to c of 6.11.2.
#[test]
fn every_case() {
    for (class, r, limit, twice) in LIMITS {
        let mut counts = BTreeMap::<_, u64>::new();
        for to_old in -limit - 2..=limit + 2 {
            for to_opposite in -limit - 2..=limit + 2 {
                let mean = (2 * to_opposite - to_old).abs() <= twice;
                let case = match (to_old.abs() <= limit, to_opposite.abs() <= limit) {
                    (false, true) => (1, New),
                    (false, false) => (2, Opposite),
                    (true, _) if mean => (3, Mean),
                    (true, true) => (4, New),
                    (true, false) => (5, Opposite),
                };
                assert_eq!(of(class, r, [100 - to_old, 100, to_opposite - 100]), case.1, "{class:?} {r} {to_old} {to_opposite}");
                *counts.entry(case).or_default() += 1;
            }
        }
        assert!(counts.len() == 5 && counts.values().all(|&count| count >= 10), "{counts:?}");
    }
}

/// Third order, R 5,000: differences up to 12, twice a mean up to 24. The old run has 0, and the new one and the opposite one these G.
#[test]
fn worked() {
    for (new, g, judgement) in [
        (13, -13, New),
        (13, -1, New),
        (13, 0, Opposite),
        (13, -25, New),
        (13, -26, Opposite),
        (-13, 25, New),
        (-13, 0, Opposite),
        // a mean of 6: 12 and 13 from the opposite run, then −12 and −13, where the new one is −7 from it, and where it is −12 and −13
        (12, 6, Mean),
        (12, 7, Opposite),
        (12, -18, Mean),
        (12, -19, New),
        (12, -24, New),
        (12, -25, Opposite),
        // a mean of 5.5: 11.5 and 12.5, −11.5 and −12.5
        (11, 6, Mean),
        (11, 7, Opposite),
        (11, -17, Mean),
        (11, -18, New),
        (0, 12, Mean),
        (0, 13, Opposite),
    ] {
        assert_eq!(of(Class::Third, 5_000, [0, new, g]), judgement, "{new} {g}");
    }
    // the limit of R 2,000 is 7.58: a mean of 3.5 is 7.5 from the opposite run, which as 4 would be 8 from it
    assert_eq!([[0, 7, 4], [0, -7, -4], [0, 7, 5]].map(|heights| of(Class::Third, 2_000, heights)), [Mean, Mean, Opposite]);
}

/// R is that of the old run and the opposite one: 8 is beyond the limit of 2,000, within that of 4,000.
#[test]
fn the_length_of_the_section() {
    for (old, new, s, judgement) in [(1_000, 3_000, 1_000, Opposite), (3_000, 8, 1_000, Mean), (1_000, 8, 3_000, Mean), (8, 3_000, 8, Opposite)] {
        assert_eq!(judged(&run(old, 0), &run(new, 8), given(Class::Third, s, 0)), Ok(judgement), "{old} {new} {s}");
    }
}

/// A text that is no run, as the old one, as the new one and as both; and a run beside which it is.
fn refused(bad: &[u8], beside: &[u8], given: Given) {
    for (first, second) in [(bad, beside), (beside, bad), (bad, bad)] {
        assert_eq!(judged(first, second, given), Err(52), "{}", String::from_utf8_lossy(bad));
    }
}

/// A text that is a run, beside another one.
fn taken(good: &[u8], beside: &[u8], given: Given) {
    for (first, second) in [(good, beside), (beside, good), (good, good)] {
        assert!(judged(first, second, given).is_ok(), "{}", String::from_utf8_lossy(good));
    }
}

/// 2 to 200 stations, an even count, beginning with either staff; no limit of a text's length.
#[test]
fn counts() {
    let sound = run(2_500, 0);
    for class in [Class::Third, Class::Spur] {
        let given = given(class, 2_500, 0);
        for first_k in [FIRST, SECOND] {
            let of = |stations: usize| lines(&run_of(first_k, 400, 0, &vec![0; stations]));
            for stations in [2, 4, 198, 200] {
                taken(&of(stations), &sound, given);
            }
            for stations in [0, 1, 3, 199, 201, 202, 777, 778, 800, 4_000] {
                refused(&of(stations), &sound, given);
            }
            assert!(of(778).len() > LONGEST_TEXT);
            assert_eq!(judged(&of(200), &of(4), given), Ok(Mean));
        }
    }
}

/// A text that ends within a line, of any length that is no whole lines, and one without its last line feed.
#[test]
fn lengths() {
    let (sound, given) = (run(2_500, 0), given(Class::Third, 2_500, 0));
    let four = lines(&run_of(FIRST, 400, 0, &[0; 4]));
    for length in 0..=four.len() {
        if length % (2 * LINE) == 0 && length > 0 {
            taken(&four[..length], &sound, given);
        } else {
            refused(&four[..length], &sound, given);
        }
    }
    refused(&four[1..], &sound, given);
    refused(&[&four[..], b"\n"].concat(), &sound, given);
    refused(&[&four[..], &[b' '; 83]].concat(), &sound, given);
}

/// A heading, another record or a line of another shape among the stations, in any place.
#[test]
fn other_lines() {
    let (sound, given) = (run(2_500, 0), given(Class::Third, 2_500, 0));
    let four = lines(&run_of(FIRST, 400, 0, &[0; 4]));
    let opening = ["LIN       3       3       1   10000", "ANG    5937    5951    6043    6067    6800   40300", "KON   46870   47870"];
    let others = opening.into_iter().chain(["", "STA", "sta", "STA    4787", "RUN       2", "DRR", "DRS", "LFT", "END       2   10000"]);
    for other in others.map(filled).chain([heading()]) {
        for place in (0..=four.len()).step_by(LINE) {
            refused(&[&four[..place], &other, &four[place..]].concat(), &sound, given);
        }
    }
    for (place, byte) in [(10, b'x'), (10, b'+'), (3, b'4'), (83, b' '), (LINE - 1, b'\r'), (LINE + 20, b'.')] {
        let mut text = four.clone();
        text[place] = byte;
        refused(&text, &sound, given);
    }
}

/// The rules of a station (6 to 8 and 22 to 28), each on its limit and beyond it, for both classes and instruments, with nominal constants.
#[test]
fn stations() {
    for (class, instrument, sight, d, e, faces_apart) in [
        (Class::Third, 3, 750, 20, 2, 3),
        (Class::Third, 1, 1_000, 20, 2, 3),
        (Class::Spur, 3, 1_000, 30, 3, 5),
        (Class::Spur, 1, 1_500, 30, 3, 5),
    ] {
        let given = Given { instrument, ..given(class, 2_500, 0) };
        let next = station(SECOND, [400, 400], 0);
        let with = |first: Call| lines(&[first, next.clone()]);
        let sound = with(station(FIRST, [400, 400], 0));
        for good in [station(FIRST, [sight, sight], 0), station(FIRST, [400 + d, 400], 0), faces(e, e), faces(-e, faces_apart - e)] {
            taken(&with(good), &sound, given);
        }
        let Call::Station { back_k, fore_k, readings } = station(FIRST, [400, 400], 0) else { unreachable!() };
        let read = |back: [i64; 4]| Call::Station { back_k, fore_k, readings: [back, readings[1]] };
        let [u, l, m, r] = readings[0];
        for bad in [
            station(FIRST, [sight + 1, sight], 0),
            station(FIRST, [sight, sight + 1], 0),
            station(FIRST, [401 + d, 400], 0),
            station(FIRST, [400, 401 + d], 0),
            faces(e + 1, e),
            faces(e, e + 1),
            faces(-e, faces_apart + 1 - e),
            read([3_001, l, m, r]),
            read([u, -1, m, r]),
            read([u, l, u, r]),
            read([l, u, m, r]),
            Call::Station { back_k: FIRST, fore_k: FIRST, readings },
            Call::Station { back_k: 4_788, fore_k, readings },
        ] {
            refused(&with(bad), &sound, given);
        }
        // the back staff is the fore staff of the station before
        refused(&lines(&[station(FIRST, [400, 400], 0), station(FIRST, [400, 400], 0)]), &sound, given);
        // d of each station within its limit, accumulated on its limit and beyond it
        let accumulated = if class == Class::Third { 50 } else { 100 };
        for (last, within) in [(0, true), (1, false)] {
            let ds = [d, d, accumulated - 2 * d - 10, 10 + last];
            let staffs = [FIRST, SECOND].into_iter().cycle();
            let run = lines(&staffs.zip(ds).map(|(k, d)| station(k, [400 + d, 400], 0)).collect::<Vec<_>>());
            if within { taken(&run, &sound, given) } else { refused(&run, &sound, given) }
        }
    }
}

/// 3 before 52, for any order but 3 and 4 and any instrument but 3 and 1.
#[test]
fn order_and_instrument() {
    let sound = run(2_500, 0);
    let orders = [(0, 3), (2, 3), (5, 1), (-3, 3), (i64::MIN, 3), (i64::MAX, 3), (1 << 32 | 3, 3)];
    let instruments = [(3, 0), (3, 2), (4, 4), (4, -1), (3, i64::MAX), (4, 1 << 32 | 1), (1, 2)];
    for (order, instrument) in orders.into_iter().chain(instruments) {
        for (first, second, g, s) in [(&sound[..], &sound[..], 0, 2_500), (&sound, &sound[..84], 0, 2_500), (b"", b"", 0, 2_500), (&sound, &sound, i64::MIN, 0)] {
            assert_eq!(judged(first, second, Given { order, instrument, g, s }), Err(3), "{order} {instrument}");
        }
    }
    for order in [3, 4] {
        for instrument in [3, 1] {
            assert_eq!(judged(&sound, &sound, Given { order, instrument, g: 0, s: 2_500 }), Ok(Mean));
        }
    }
}

/// G within ±1,250,000, s from 8 to 600,000.
#[test]
fn the_opposite_run() {
    let sound = run(8, 0);
    let of = |g, s| judged(&sound, &sound, given(Class::Third, s, g));
    // R 600,008 has a limit of 131
    for (g, s, judgement) in [
        (0, 8, Mean),
        (0, 600_000, Mean),
        (131, 600_000, Mean),
        (-131, 600_000, Mean),
        (132, 600_000, Opposite),
        (1_250_000, 8, Opposite),
        (-1_250_000, 600_000, Opposite),
    ] {
        assert_eq!(of(g, s), Ok(judgement), "{g} {s}");
    }
    for (g, s) in [(1_250_001, 8), (-1_250_001, 8), (i64::MIN, 8), (i64::MAX, 8), (0, 7), (0, 0), (0, -8), (0, 600_001), (0, i64::MIN), (0, i64::MAX), (i64::MAX, i64::MAX)] {
        assert_eq!(of(g, s), Err(52), "{g} {s}");
    }
}

/// A run of up to 12 stations with this G, beginning with either staff.
fn any_run(random: &mut Random, g: i64) -> Vec<u8> {
    let stations = 2 * random.between(1, 6);
    let any = random.between(4 * stations, 1_480 * stations);
    let s = *random.pick(&[4 * stations, 200 * stations, any]);
    let first_k = *random.pick(&[FIRST, SECOND]);
    lines(&run_with(first_k, stations, s, g))
}

/// Random runs near the limits, one in eight with a byte changed.
#[test]
fn twenty_thousand_judgements() {
    let mut random = Random::new(209);
    let mut counts = BTreeMap::<_, u64>::new();
    for _ in 0..20_000 {
        let g = random.between(-900, 900);
        let near = *random.pick(&[8, 16, 40]);
        let [old, new] = [0, random.between(-near, near)].map(|off| any_run(&mut random, g + off));
        let any = random.between(8, 20_000);
        let s = *random.pick(&[8, 1_000, 2_500, any]);
        let given = Given { order: random.between(3, 4), instrument: *random.pick(&[3, 1]), g: random.between(-near, near) - g, s };
        let mut texts = [old, new];
        if random.chance(1, 8) {
            let text = &mut texts[random.below(2) as usize];
            let place = random.below(text.len() as u64) as usize;
            text[place] = *random.pick(b" 0123456789-\nSTA");
        }
        *counts.entry(judged(&texts[0], &texts[1], given).ok()).or_default() += 1;
    }
    println!("{counts:?}");
    assert!(counts.len() == 4 && counts.values().all(|&count| count >= 1_000), "{counts:?}");
}

/// The program on two texts as files, with these arguments behind them.
fn by_the_program(first: &[u8], second: &[u8], arguments: &[&str]) -> Output {
    let files = [("old", first), ("new", second)].map(|(name, text)| {
        let file = Path::new(env!("CARGO_TARGET_TMPDIR")).join(format!("{name}.run"));
        std::fs::write(&file, text).expect("a file of the tests");
        file
    });
    Command::new(program("judge")).args(files).args(arguments).output().expect("the program runs")
}

/// One line with the judgement or the refusal; the runs of the example are those of README.
#[test]
fn the_program() {
    let whole = book("return-again");
    let [old, new] = [7, 11].map(|line| &whole[line * LINE..(line + 2) * LINE]);
    let long = vec![b' '; 1 << 20];
    for (first, second, order, instrument, g, s) in [
        (old, new, 3, 1, 982, 3_612),
        (old, new, 4, 1, 990, 3_612),
        (old, new, 3, 1, 1_000, 3_612),
        (new, old, 3, 1, -982, 3_612),
        (old, new, 5, 1, 982, 3_612),
        (old, new, 3, 2, 982, 3_612),
        (old, &new[..167], 3, 1, 982, 3_612),
        (b"", new, 3, 1, 982, 3_612),
        (&long, new, 3, 1, 982, 3_612),
        (old, new, 3, 1, 1_250_001, 3_612),
        (old, new, 3, 1, 982, 7),
    ] {
        let given = Given { order, instrument, g, s };
        let output = by_the_program(first, second, &[order, instrument, g, s].map(|one| one.to_string()).each_ref().map(|one| &one[..]));
        assert_eq!((String::from_utf8_lossy(&output.stdout), output.status.code()), (printed(first, second, given).into(), Some(0)), "{given:?}");
        assert_eq!(output.stderr, b"", "{given:?}");
    }
    for arguments in [&[][..], &["3", "1", "982"], &["3", "1", "982", "3612", "5"], &["3", "1", "982", "x"], &["3", "", "982", "3612"]] {
        let output = by_the_program(old, new, arguments);
        assert_eq!((&output.stdout[..], output.status.code()), (&b""[..], Some(1)), "{arguments:?}");
        assert!(output.stderr.starts_with(b"usage: judge OLD NEW ORDER INSTRUMENT G S"), "{arguments:?}");
    }
    let missing = Command::new(program("judge")).args(["none.run", "none.run", "3", "1", "982", "3612"]).output().expect("the program runs");
    assert_eq!((&missing.stdout[..], missing.status.code()), (&b""[..], Some(1)));
    assert!(!missing.stderr.is_empty());
}
