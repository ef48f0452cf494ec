//! The root decision a * x * x <= b * l, compared with i128 arithmetic for the coefficients that documents 01 and 02 name.
use level_tests::fraction::within;
use level_tests::random::Random;
use levelbook::root_within;

/// Each pair as it stands, and with its right side times 100.
fn coefficients() -> Vec<(u16, u16)> {
    let named = [(625, 72), (25, 8), (625, 18), (25, 2), (15_625, 18), (625, 2)];
    named.iter().flat_map(|&(a, b)| [(a, b), (a, 100 * b)]).collect()
}

fn compare(a: u16, x: i64, b: u16, l: i64) {
    let expected = within(a as i128, x as i128, b as i128, l as i128);
    assert_eq!(root_within(a, x, b, l), expected, "{a} * {x}^2 <= {b} * {l}");
}

/// The largest x with a * x * x <= b * l, for l from 0 on.
fn limit(a: u16, b: u16, l: i64) -> i64 {
    let (mut low, mut high) = (0i128, 1i128 << 45);
    while high - low > 1 {
        let middle = (low + high) / 2;
        if within(a as i128, middle, b as i128, l as i128) {
            low = middle;
        } else {
            high = middle;
        }
    }
    low as i64
}

#[test]
fn at_the_limit_and_one_beyond() {
    let lengths = [0, 1, 2, 8, 2_564, 4_164, 20_000, 3_000_000, 4_000_000, 76_800_000, 1 << 31, 1 << 40, 1 << 62, i64::MAX];
    for (a, b) in coefficients() {
        for l in lengths {
            let most = limit(a, b, l);
            for x in [most - 1, most, most + 1, most + 2] {
                compare(a, x, b, l);
                compare(a, -x, b, l);
            }
            assert!(root_within(a, most, b, l) && !root_within(a, most + 1, b, l), "{a} {b} {l}");
        }
    }
}

#[test]
fn the_ends_of_64_bits() {
    let ends = [0, 1, -1, 1 << 40, (1 << 40) - 1, -(1 << 40), 1 << 32, i64::MAX, i64::MIN, i64::MIN + 1];
    for (a, b) in coefficients().into_iter().chain([(1, 0), (1, 1), (u16::MAX, u16::MAX), (1, u16::MAX)]) {
        for x in ends {
            for l in ends {
                compare(a, x, b, l);
            }
        }
    }
}

/// A coefficient of 0 on the left makes the left side 0, whatever x is.
#[test]
fn nothing_on_the_left() {
    for x in [0, 1, i64::MAX, i64::MIN] {
        for (b, l, expected) in [(0, -5, true), (0, 5, true), (3, 0, true), (3, 5, true), (3, -5, false)] {
            assert_eq!(root_within(0, x, b, l), expected, "0 * {x}^2 <= {b} * {l}");
        }
    }
}

#[test]
fn a_million_random_cases() {
    let seed = 20_262;
    println!("seed {seed}");
    let mut random = Random::new(seed);
    let pairs = coefficients();
    for _ in 0..1_000_000 {
        let &(a, b) = random.pick(&pairs);
        let l = random.next() as i64 >> random.below(64);
        let near = (l.max(0) as f64 * b as f64 / a as f64).sqrt() as i64;
        compare(a, near + random.between(-3, 3), b, l);
        compare(a, random.next() as i64 >> random.below(64), b, l);
    }
}
