//! Worked spurs (document 02, W-202): lists of calls, each run by the proved book and by the other implementation.

use level_tests::both::{after, figures, report, run};
use level_tests::fixed::{faces, run_of, section, station, FIRST, SECOND};
use level_tests::opening::{closing_call, opening, opening_of, usual};
use level_tests::plain::{Call, Opened};
use level_tests::rules::Class;
use level_tests::write::{filled, text_of};

/// So many sections with a D of 10, so that each t is 10,000, and a Q of 10.
fn sections(n: i64) -> Vec<Call> {
    (1..=n).flat_map(|number| section(number, number + 1, 10, 0)).collect()
}

fn spur() -> Vec<Call> {
    opening(Class::Spur)
}

fn end(number: i64) -> Call {
    Call::EndRun(number)
}

fn fin(number: i64) -> Call {
    Call::CloseSpur(number)
}

fn close(number: i64, height: i64) -> Call {
    Call::CloseLine { number, height }
}

/// Heights are start plus running Q: 10002.5, 10005 and 10007.5 from 10000; a tie goes to the even one. A correction is what the printed heights have more
/// than Q.
#[test]
fn heights_and_corrections() {
    for (start, points) in [
        (10_000, [(10_002, -2), (10_005, 2), (10_008, 2)]),
        (10_001, [(10_004, 2), (10_006, -2), (10_008, -2)]),
        (-10, [(-8, -2), (-5, 2), (-2, 2)]),
        (-3, [(0, 2), (2, -2), (4, -2)]),
    ] {
        let opened = opening_of(Class::Spur, Opened { height: start, ..usual(4) });
        let figures = figures(&[opened, sections(3), vec![fin(4)]].concat());
        assert_eq!(figures[..10], [0, 15_000, 3, 30_000, 0, 0, 0, 0, 0, 3]);
        let [a, b, c] = points;
        assert_eq!(figures[10..26], [1, 0, 0, start, 2, 5_000, a.1, a.0, 3, 10_000, b.1, b.0, 4, 15_000, c.1, c.0]);
        assert_eq!(figures[26..], [0; 244]);
    }
}

/// 25 D² ≤ 2 R at its limit, where 625 D² ≤ 18 R at third order ends at 12.
#[test]
fn out_and_back_on_the_limit() {
    let ended = |class: Class, short: i64, d: i64| {
        let out = [opening(class), run_of(FIRST, 625, 0, &[700, 0]), vec![end(2)], run_of(SECOND, 625, short, &[d - 700, 0])].concat();
        after(&out, &[end(1)])[0]
    };
    for d in [20, -20, 19, 0] {
        assert_eq!(ended(Class::Spur, 0, d), 0, "R 5,000, D {d}");
    }
    assert_eq!([21, -21].map(|d| ended(Class::Spur, 0, d)), [32, 32]);
    assert_eq!([20, -20, 19].map(|d| ended(Class::Spur, 1, d)), [32, 32, 0]);
    assert_eq!([20, 21].map(|d| ended(Class::Spur, -1, d)), [0, 32]);
    assert_eq!([12, 13].map(|d| ended(Class::Third, 0, d)), [0, 32]);
}

/// A station is judged as at fourth order.
#[test]
fn stations() {
    for (instrument, sight) in [(3, 1_000), (1, 1_500)] {
        let opened = opening_of(Class::Spur, Opened { instrument, ..usual(4) });
        for (call, number) in [
            (station(FIRST, [sight, sight], 0), 0),
            (station(FIRST, [sight + 1, sight], 0), 24),
            (station(FIRST, [500, 470], 0), 0),
            (station(FIRST, [500, 469], 0), 25),
            (faces(3, -2), 0),
            (faces(4, 0), 27),
            (faces(3, -3), 28),
        ] {
            assert_eq!(after(&opened, &[call.clone()]), [number], "{call:?}");
        }
    }
    let far = run_of(FIRST, 500, 25, &[0]).into_iter().chain([station(SECOND, [500, 475], 0), station(FIRST, [500, 475], 0), station(SECOND, [500, 474], 0)]);
    assert_eq!(after(&spur(), &far.chain([station(SECOND, [500, 475], 0)]).collect::<Vec<_>>()), [0, 0, 0, 26, 0]);
}

/// No verdict of 19 sections; T at, one below and one above 10,000 n of 20 and of 64.
#[test]
fn verdicts() {
    let closed = |n: i64, calls: Vec<Call>| figures(&[spur(), sections(n - 1), calls, vec![fin(n + 1)]].concat())[..5].to_vec();
    for (n, verdict) in [(19, 0), (20, 1), (64, 1)] {
        assert_eq!(closed(n, section(n, n + 1, 10, 0)), [0, 5_000 * n, n, 10_000 * n, verdict]);
        let judged = 2 * verdict;
        assert_eq!(closed(n, section(n, n + 1, 11, 0)), [0, 5_000 * n, n, 10_000 * n + 2_100, judged]);
        assert_eq!(closed(n, section(n, n + 1, 9, 0)), [0, 5_000 * n, n, 10_000 * n - 1_900, verdict]);
        // D 20: R 20,000 has t 10,000, R 19,999 has 10,000.5.. and R 20,002 has 9,999.0..
        for (short, t, verdict) in [(0, 10_000, verdict), (1, 10_001, judged), (-2, 9_999, verdict)] {
            let level = [0; 9];
            let [out, back] = [(FIRST, 0, 20), (SECOND, short, 0)].map(|(k, short, twice)| run_of(k, 500, short, &[&[twice][..], &level].concat()));
            let last = [out, vec![end(n + 1)], back, vec![end(n)]].concat();
            assert_eq!(closed(n, last), [0, 5_000 * n + 15_000 - short, n, 10_000 * n - 10_000 + t, verdict]);
        }
    }
}

/// Order 4 alone; what the input alone causes comes before what the book's state causes.
#[test]
fn opening_a_spur() {
    let open = |order, instrument, start, height| Call::OpenSpur(Opened { order, instrument, start, height, prints: 1 });
    let refused = [
        (open(3, 3, 1, 0), 3),
        (open(5, 3, 1, 0), 3),
        (open(-4, 3, 1, 0), 3),
        (open(4, 2, 1, 0), 3),
        (open(3, 3, 0, 9_000_000), 3),
        (open(4, 3, 0, 9_000_000), 4),
        (open(4, 1, 10_000, 0), 4),
        (open(4, 1, 9_999, 9_000_000), 5),
        (open(4, 3, 1, -1_000_000), 5),
    ];
    let others = [(open(4, 3, 1, 0), 21), (Call::Open(usual(3)), 21), (Call::Open(usual(4)), 21)];
    let (calls, numbers): (Vec<Call>, Vec<u8>) = refused.iter().cloned().unzip();
    assert_eq!(after(&[], &calls), numbers);
    for class in Class::ALL {
        for (call, number) in refused.iter().chain(&others) {
            assert_eq!(after(&opening(class), &[call.clone()]), [*number], "{class:?} {call:?}");
        }
    }
    assert_eq!(after(&[], &[open(4, 1, 9_999, 8_999_999)]), [0]);
}

/// FIN on a line and END on a spur, on a fresh, an open and a closed book; 4 and 5 come before, 33 and 34 after.
#[test]
fn the_closing_of_the_other() {
    let inputs = [fin(0), fin(10_000), close(0, 9_000_000), close(2, 9_000_000)];
    let closings = |book: &[Call], number: i64| {
        let answers = after(book, &[&inputs[..], &[fin(number), close(number, 10_003)]].concat());
        assert_eq!(answers[..4], [4, 4, 4, 5]);
        [answers[4], answers[5]]
    };
    assert_eq!(closings(&[], 2), [21, 21]);
    let out = run_of(FIRST, 625, 0, &[10, 0]);
    for class in Class::ALL {
        let in_turn = |own, other| if class == Class::Spur { [own, other] } else { [other, own] };
        for stations in 0..=2 {
            assert_eq!(closings(&[&opening(class), &out[..stations]].concat(), 2), in_turn(33, 41));
        }
        let ended = [opening(class), out.clone(), vec![end(2)]].concat();
        let whole = if class.goes_both_ways() {
            assert_eq!(closings(&ended, 2), in_turn(33, 41));
            [opening(class), section(1, 2, 10, 0)].concat()
        } else {
            ended
        };
        assert_eq!(closings(&whole, 3), in_turn(34, 41));
        let refused = if class == Class::Spur { close(2, 10_003) } else { fin(2) };
        assert_eq!(after(&whole, &[refused, closing_call(class, 2, 10_003)]), [41, 0]);
        assert_eq!(closings(&[whole, vec![closing_call(class, 2, 10_003)]].concat(), 2), [21, 21]);
    }
}

/// The start number is not allowed on a spur, also once a section stands; the run goes on and ends elsewhere. 31 comes before it.
#[test]
fn back_to_the_start() {
    let [out, back] = [(FIRST, 10), (SECOND, 0)].map(|(k, twice)| run_of(k, 625, 0, &[twice, 0]));
    let again = [out.clone(), vec![end(1), end(2)], back.clone(), vec![end(2), end(1)]].concat();
    assert_eq!(after(&spur(), &again), [0, 0, 30, 0, 0, 0, 30, 0]);
    let next = [out.clone(), vec![end(1), end(2), end(3)], back, vec![end(1), end(2), fin(1), fin(3)]].concat();
    assert_eq!(after(&[spur(), sections(1)].concat(), &next), [0, 0, 30, 30, 0, 0, 0, 30, 0, 34, 0]);
    let line = [opening(Class::Third), sections(1), out.clone()].concat();
    assert_eq!(after(&line, &[end(1)]), [0]);
    let ends = [end(1), end(2), end(66), fin(65), Call::DropRun, fin(65)];
    assert_eq!(after(&[spur(), sections(64), out].concat(), &ends), [31, 31, 31, 33, 0, 0]);
}

/// A return begins with the other staff, also after it was dropped; after drop section either may begin. Nothing of what is dropped is in the figures.
#[test]
fn drops() {
    let [a, b] = <[Call; 2]>::try_from(run_of(FIRST, 625, 0, &[10, 0])).unwrap();
    let [c, d] = <[Call; 2]>::try_from(run_of(SECOND, 625, 0, &[0, 0])).unwrap();
    let wide = run_of(SECOND, 625, 0, &[11, 0]);
    let (run, section) = (Call::DropRun, Call::DropSection);
    let calls = [
        vec![run.clone(), section.clone(), end(2), a.clone(), end(2), b.clone(), end(2), fin(2)],
        vec![d.clone(), c.clone(), end(1), run.clone(), d.clone()],
        [wide, vec![end(1), run, c.clone(), d.clone(), end(1)]].concat(),
        vec![c.clone(), d.clone(), end(3), section.clone(), a, b, end(3), section, fin(3), fin(2)],
    ]
    .concat();
    let wanted = [
        vec![0, 0, 29, 0, 29, 0, 0, 33],
        vec![23, 0, 29, 0, 23],
        vec![0, 0, 32, 0, 0, 0, 0],
        vec![0, 0, 0, 0, 0, 0, 0, 0, 34, 0],
    ]
    .concat();
    assert_eq!(after(&spur(), &calls), wanted);
    let (_, figures) = self::run(&[spur(), calls].concat());
    assert_eq!(figures[..18], [0, 5_000, 1, 10_000, 0, 0, 0, 0, 0, 1, 1, 0, 0, 10_000, 2, 5_000, -2, 10_002]);
}

/// Sections of 200 stations each way.
fn long_sections(n: i64, sight: i64, twice: i64) -> Vec<Call> {
    let [out, back] = [(FIRST, twice), (SECOND, -twice)].map(|(k, twice)| run_of(k, sight, 0, &[twice; 200]));
    (1..=n).flat_map(|number| [&out[..], &[end(number + 1)], &back, &[end(number)]].concat()).collect()
}

/// 120, 180, 240, 540 and 3,840 km: no length is too long.
#[test]
fn lengths() {
    let opened = opening_of(Class::Spur, Opened { instrument: 1, ..usual(4) });
    for n in [2, 3, 4, 9, 64] {
        let figures = figures(&[opened.clone(), long_sections(n, 1_500, 0), vec![fin(n + 1)]].concat());
        let verdict = if n < 20 { 0 } else { 1 };
        assert_eq!(figures[..5], [0, 1_200_000 * n, n, 0, verdict]);
        assert_eq!(figures[10 + 4 * n as usize..][..4], [n + 1, 1_200_000 * n, 0, 10_000]);
    }
    let out = run_of(FIRST, 1_500, 0, &[0; 192]);
    let back = run_of(SECOND, 1_500, 0, &[0; 192]);
    let text = text_of(&[opened, out.clone(), vec![end(2)], back.clone(), vec![end(1)], out, vec![end(3)], back, vec![end(2), fin(3)]].concat());
    let lines = ["REDUCED LEVELS", "CLO       0 2304000       2       0       0", "PNT       1       0       0   10000", "PNT       2 1152000       0   10000"];
    let expected = [lines.map(filled).concat(), filled("PNT       3 2304000       0   10000")].concat();
    assert_eq!(report(&text), Ok(expected));
}

/// Heights outside the range of known heights: 64 sections of 590 m, down and up.
#[test]
fn heights_beyond_the_range() {
    for (start, twice) in [(-999_999, -5_900), (8_999_999, 5_900)] {
        let opened = opening_of(Class::Spur, Opened { height: start, ..usual(4) });
        let figures = figures(&[opened, long_sections(64, 20, twice), vec![fin(65)]].concat());
        assert_eq!(figures[..5], [0, 64 * 16_000, 64, 0, 1]);
        assert_eq!(figures[266..], [65, 64 * 16_000, 0, start + 64 * 100 * twice]);
    }
}
