//! Worked lists of calls, run by the proved book: case A, the practice stations of source document 001 (section 5.4.1), and the rules at their limits.

use level_tests::opening::opening;
use level_tests::rules::Class;
use level_tests::write::numbers_of;

type Call = Vec<i64>;

fn open(order: i64) -> Vec<Call> {
    opening(Class::of_line(order).expect("an order")).iter().map(numbers_of).collect()
}

fn station(back_k: i64, back: [i64; 4], fore: [i64; 4]) -> Call {
    [&[2, back_k], &back[..], &[4_687 + 4_787 - back_k], &fore[..]].concat()
}

fn end(number: i64) -> Call {
    vec![3, number]
}

const DROP_RUN: [i64; 1] = [4];
const DROP_SECTION: [i64; 1] = [5];

fn close(number: i64, height: i64) -> Call {
    vec![6, number, height]
}

/// The two stations of case A's second section, and the same on the way back.
fn out() -> Vec<Call> {
    vec![
        station(4_787, [1_300, 1_100, 1_200, 5_987], [1_000, 800, 900, 5_587]),
        station(4_687, [1_500, 1_300, 1_400, 6_087], [1_250, 1_050, 1_150, 5_937]),
    ]
}

fn back() -> Vec<Call> {
    vec![
        station(4_687, [1_000, 800, 900, 5_587], [1_300, 1_100, 1_200, 5_987]),
        station(4_787, [1_250, 1_050, 1_150, 5_937], [1_500, 1_300, 1_400, 6_087]),
    ]
}

/// A level pair of stations: both sights upper − lower, the red faces given by the staff of 4,787 and of 4,687.
fn level(first_k: i64, upper: i64, lower: i64, back_e: i64, fore_e: i64) -> Vec<Call> {
    let pair = |k: i64| station(k, [upper, lower, 1_500, k + 1_500 - back_e], [upper, lower, 1_500, 9_474 - k + 1_500 - fore_e]);
    vec![pair(first_k), pair(9_474 - first_k)]
}

fn times(n: usize, calls: &[Call]) -> Vec<Call> {
    calls.iter().cycle().take(n * calls.len()).cloned().collect()
}

/// The answers, and the figures of the book at the end: W, L, n, T, verdict; count, G, s and sum of d of the present run; sections; the points.
fn run(calls: &[Call]) -> (Vec<u8>, Vec<i64>) {
    let list: Vec<i64> = calls.iter().flat_map(|call| (0..11).map(|k| call.get(k).copied().unwrap_or(0))).collect();
    let (mut numbers, mut figures) = (vec![99; calls.len()], vec![-1; 270]);
    assert_eq!(levelbook::run(&list, &mut numbers, &mut figures), calls.len());
    (numbers, figures)
}

/// The answers of the calls that follow others, which are all taken.
fn after(before: &[Call], calls: &[Call]) -> Vec<u8> {
    let (numbers, _) = run(&[before, calls].concat());
    let (taken, rest) = numbers.split_at(before.len());
    assert!(taken.iter().all(|&number| number == 0), "{taken:?}");
    rest.to_vec()
}

/// The figures after calls that are all taken.
fn figures(calls: &[Call]) -> Vec<i64> {
    let (numbers, figures) = run(calls);
    assert_eq!(numbers, vec![0; calls.len()]);
    figures
}

#[test]
fn case_a() {
    let first = vec![
        station(4_787, [1_571, 1_197, 1_384, 6_171], [739, 363, 551, 5_239]),
        station(4_687, [1_965, 1_700, 1_832, 6_519], [2_141, 1_874, 2_007, 6_793]),
    ];
    let figures = figures(&[open(4), first, vec![end(2)], out(), vec![end(3), close(3, 11_206)]].concat());
    assert_eq!(figures[..10], [8, 4_164, 2, 0, 0, 0, 0, 0, 0, 2]);
    assert_eq!(figures[10..22], [1, 0, 0, 10_000, 2, 2_564, -4, 10_657, 3, 4_164, -4, 11_206]);
    assert_eq!(figures[22..], [0; 248]);
}

#[test]
fn practice_stations() {
    let stations = [
        station(4_687, [2_121, 1_747, 1_934, 6_621], [2_196, 1_821, 2_008, 6_796]),
        station(4_787, [1_914, 1_539, 1_726, 6_513], [2_055, 1_678, 1_869, 6_554]),
    ];
    for order in [3, 4] {
        assert_eq!(figures(&[open(order), stations.to_vec()].concat())[5..9], [2, -149 - 284, 374 + 375 + 375 + 377, -3]);
    }
}

#[test]
fn two_hundred_stations() {
    let full = [open(4), times(100, &out())].concat();
    assert_eq!(after(&full, &[out(), vec![end(2)]].concat()), [22, 22, 0]);
}

/// A refused d is not added.
#[test]
fn accumulated_d() {
    let far = |k: i64, d: i64| station(k, [1_600 + d, 1_400, 1_500, k + 1_500], [1_600, 1_400, 1_500, 9_474 - k + 1_500]);
    let (a, b) = (4_787, 4_687);
    let fourth = [far(a, 30), far(b, 30), far(a, 30), far(b, 11), far(b, 10), far(a, 1), far(b, 0), far(a, 31), far(a, 0), DROP_RUN.to_vec(), far(a, 30)];
    assert_eq!(after(&open(4), &fourth), [0, 0, 0, 26, 0, 26, 23, 25, 0, 0, 0]);
    assert_eq!(after(&open(3), &[far(a, 20), far(b, 20), far(a, 11), far(a, 10)]), [0, 0, 26, 0]);
}

fn sections_out(n: i64) -> Vec<Call> {
    (2..2 + n).flat_map(|number| [out(), vec![end(number)]].concat()).collect()
}

fn sections_both_ways(n: i64) -> Vec<Call> {
    (2..2 + n).flat_map(|number| [out(), vec![end(number)], back(), vec![end(number - 1)]].concat()).collect()
}

#[test]
fn sixty_four_sections() {
    let [a, b] = <[Call; 2]>::try_from(out()).unwrap();
    let full = [open(4), sections_out(64)].concat();
    let calls = [a.clone(), end(99), b.clone(), end(99), end(2), end(1), end(0), close(65, 45_200), DROP_RUN.to_vec(), close(65, 45_200), end(99)];
    assert_eq!(after(&full, &calls), [0, 29, 0, 31, 31, 31, 4, 33, 0, 0, 21]);
    let room = [open(4), sections_out(63)].concat();
    let calls = [a.clone(), b.clone(), end(2), end(1), a.clone(), end(99), close(1, 10_000), close(1, 9_999), close(64, 10_000)];
    assert_eq!(after(&room, &calls), [0, 0, 30, 0, 21, 21, 36, 34, 34]);
    let full = [open(3), sections_both_ways(64)].concat();
    assert_eq!(after(&full, &[a, b, end(99), end(2), DROP_SECTION.to_vec(), close(65, 45_200)]), [0, 0, 31, 31, 0, 0]);
    let room = [open(3), sections_both_ways(63)].concat();
    let calls = [out(), vec![end(99)], back(), vec![end(99), end(1), end(64)], out(), vec![end(100)]].concat();
    assert_eq!(after(&room, &calls), [0, 0, 0, 0, 0, 30, 30, 0, 0, 0, 31]);
}

/// 80 km and a loop of 100 km are taken, a section more and a pair of stations more are not.
#[test]
fn lengths() {
    let long = |n: usize| times(n, &level(4_787, 2_000, 1_000, 0, 0));
    let at80 = [open(4), long(100), vec![end(2)], long(100), vec![end(3)]].concat();
    assert_eq!(after(&at80, &[close(3, 10_000)]), [0]);
    let more = [out(), vec![end(4), close(4, 10_550), close(4, 0), close(3, 10_550)]].concat();
    assert_eq!(after(&at80, &more), [0, 0, 0, 35, 35, 34]);
    let hundred = [at80.clone(), long(50), vec![end(1)]].concat();
    assert_eq!(after(&hundred, &[close(1, 10_001), close(1, 10_000)]), [34, 0]);
    assert_eq!(after(&[at80, long(51), vec![end(1)]].concat(), &[close(1, 10_000)]), [35]);
}

/// The same at third order: 150 km, and a loop of 200 km.
#[test]
fn lengths_both_ways() {
    let section = |from: i64, to: i64, sight: i64| {
        let run = |k: i64| times(100, &level(k, 1_200 + sight, 1_200, 0, 0));
        [run(4_787), vec![end(to)], run(4_687), vec![end(from)]].concat()
    };
    let at150 = (1..6).flat_map(|number| section(number, number + 1, 750)).collect::<Vec<Call>>();
    let at150 = [open(3), at150].concat();
    assert_eq!(after(&at150, &[close(6, 10_000)]), [0]);
    let more = [at150.clone(), out(), vec![end(7)], back(), vec![end(6)]].concat();
    assert_eq!(after(&more, &[close(7, 10_550)]), [35]);
    let loop_of = |sight: i64| [at150.clone(), section(6, 7, 750), section(7, 1, sight)].concat();
    assert_eq!(after(&loop_of(500), &[close(1, 10_000)]), [0]);
    assert_eq!(after(&loop_of(501), &[close(1, 10_000)]), [35]);
}

/// Sections of R 5000, Q −6 and D 6, so that t is 3600: no verdict of 19; T exactly 3600 n of 20.
#[test]
fn verdicts() {
    let sections = |n: i64| -> Vec<Call> {
        (2..2 + n)
            .flat_map(|number| [level(4_787, 1_812, 1_187, 0, 0), vec![end(number)], level(4_687, 1_812, 1_187, -2, 1), vec![end(number - 1)]].concat())
            .collect()
    };
    let closed = |calls: &[Call]| figures(&[&open(3), calls].concat())[..5].to_vec();
    assert_eq!(closed(&[sections(19), vec![close(20, 9_971)]].concat()), [2, 95_000, 19, 68_400, 0]);
    assert_eq!(closed(&[sections(20), vec![close(21, 9_970)]].concat()), [0, 100_000, 20, 72_000, 1]);
    let last = vec![
        station(4_687, [1_000, 800, 900, 5_589], [1_300, 1_100, 1_200, 5_986]),
        station(4_787, [1_250, 1_050, 1_150, 5_939], [1_500, 1_300, 1_400, 6_086]),
    ];
    let calls = [sections(19), out(), vec![end(21)], last, vec![end(20), close(21, 10_520)]].concat();
    assert_eq!(closed(&calls), [0, 96_600, 20, 79_650, 2]);
}

/// A return ends where its section began, and begins with the other staff, also after a return was dropped; after drop section either may begin.
#[test]
fn out_and_back() {
    let [a, b] = <[Call; 2]>::try_from(out()).unwrap();
    let [c, d] = <[Call; 2]>::try_from(back()).unwrap();
    let (run, section) = (DROP_RUN.to_vec(), DROP_SECTION.to_vec());
    let calls = [
        vec![run.clone(), section.clone(), end(2), a.clone(), b, end(1), end(2)],
        vec![d.clone(), c.clone(), d.clone(), end(2), run.clone(), d.clone(), c.clone(), d.clone(), end(1)],
        vec![c.clone(), d.clone(), end(2), end(1), end(1), c.clone(), a, run.clone(), c.clone()],
        vec![close(2, 10_550), section, c, run, close(2, 10_550)],
    ]
    .concat();
    let wanted = [
        vec![0, 0, 29, 0, 0, 30, 0],
        vec![23, 0, 0, 30, 0, 23, 0, 0, 0],
        vec![0, 0, 30, 0, 29, 23, 0, 0, 23],
        vec![33, 0, 0, 0, 0],
    ]
    .concat();
    assert_eq!(after(&open(3), &calls), wanted);
}

/// A loop is shut by its last return; then stations and ended runs get 21 and drops are accepted. Once it is closed every call gets 21, but for what its input alone causes.
#[test]
fn shut_loop() {
    let [a, b] = <[Call; 2]>::try_from(out()).unwrap();
    let [c, d] = <[Call; 2]>::try_from(back()).unwrap();
    let (run, section) = (DROP_RUN.to_vec(), DROP_SECTION.to_vec());
    let calls = [
        vec![a.clone(), b.clone(), end(2), c.clone(), d.clone(), end(1), c, d, end(1), a.clone(), b, end(1), end(2)],
        vec![a.clone(), end(3), run.clone(), section.clone(), close(2, 10_000), close(1, 10_001), close(1, 10_000)],
        open(3),
        vec![a, end(3), run, section, close(1, 10_000), end(0)],
    ]
    .concat();
    let wanted = [vec![0, 0, 0, 0, 0, 0, 0, 0, 0, 0, 0, 30, 0], vec![21, 21, 0, 0, 34, 34, 0], vec![21; open(3).len()], vec![21, 21, 21, 21, 21, 4]].concat();
    assert_eq!(after(&open(3), &calls), wanted);
}
