//! Rounding to even, compared with i128 arithmetic; and that its source has no branch.
use level_tests::fraction::round_even;
use level_tests::random::Random;
use levelbook::round_half_even;

const LARGEST: i64 = 4_000_000_000_000_000_000;

/// A divisor outside 1 to 4 * 10^18 stands for the nearest one inside.
fn expected(n: i64, d: i64) -> i64 {
    round_even(n as i128, d.clamp(1, LARGEST) as i128) as i64
}

fn compare(n: i64, d: i64) {
    assert_eq!(round_half_even(n, d), expected(n, d), "{n} / {d}");
}

/// The 64-bit numbers within 70 of 0, ±2^31, ±2^62 and ±2^63.
fn numerators() -> Vec<i64> {
    let centres = [0, 1i128 << 31, -(1 << 31), 1 << 62, -(1 << 62), 1 << 63, -(1 << 63)];
    let near = centres.iter().flat_map(|c| (-70..=70).map(move |k| c + k));
    near.filter_map(|n| i64::try_from(n).ok()).collect()
}

fn divisors() -> Vec<i64> {
    let mut list: Vec<i64> = (1..=40).collect();
    for large in [1 << 31, 1 << 62, LARGEST] {
        list.extend(large - 3..=large + 3);
    }
    list.extend([0, -1, -2, -LARGEST, i64::MIN, i64::MIN + 1, i64::MAX, i64::MAX - 1]);
    list
}

#[test]
fn signs_and_divisors_at_their_ends() {
    for n in numerators() {
        for d in divisors() {
            compare(n, d);
        }
    }
}

#[test]
fn ties_and_their_neighbours() {
    for d in divisors().into_iter().filter(|d| (1..=LARGEST).contains(d)) {
        for k in -50i128..=50 {
            let half = k * d as i128 + d as i128 / 2;
            for n in [half - 1, half, half + 1] {
                if let Ok(n) = i64::try_from(n) {
                    compare(n, d);
                }
            }
        }
    }
}

#[test]
fn a_million_random_pairs() {
    let seed = 20_261;
    println!("seed {seed}");
    let mut random = Random::new(seed);
    for _ in 0..1_000_000 {
        let n = random.next() as i64 >> random.below(64);
        let d = random.next() as i64 >> random.below(64);
        compare(n, d);
    }
}

/// The source of rounding, which calls nothing outside itself, has none of these in it, comments included.
#[test]
fn no_branch_in_the_source() {
    let path = concat!(env!("CARGO_MANIFEST_DIR"), "/../crates/roots/src/rounding.rt");
    let source = std::fs::read_to_string(path).expect("the source of rounding");
    let words: Vec<&str> = source.split(|c: char| !(c.is_alphanumeric() || c == '_')).collect();
    for branch in ["if", "else", "match", "loop", "while", "for"] {
        assert!(!words.contains(&branch), "`{branch}` in {path}");
    }
    for branch in ["&&", "||"] {
        assert!(!source.contains(branch), "`{branch}` in {path}");
    }
    for called in calls(&source) {
        assert!(source.contains(&format!("fn {called}(")), "`{called}` is called and is not in {path}");
    }
}

/// The names before an opening parenthesis in the code: contracts and comments stand on lines of their own and are left out.
fn calls(source: &str) -> Vec<String> {
    let skipped = ["//", "ghost use", "requires", "ensures", "fn ", "pub fn "];
    let code = source.lines().filter(|l| !skipped.iter().any(|s| l.trim_start().starts_with(s)));
    let mut names = Vec::new();
    for line in code {
        for (at, _) in line.match_indices('(') {
            let name: String = line[..at].chars().rev().take_while(|c| c.is_alphanumeric() || *c == '_').collect();
            if !name.is_empty() {
                names.push(name.chars().rev().collect());
            }
        }
    }
    assert!(names.iter().any(|n| n == "floor_of"), "no call was found at all");
    names
}
