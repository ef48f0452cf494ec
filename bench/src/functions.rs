//! The proved function beside the other implementation's.
use std::hint::black_box;
use std::time::Duration;

use level_tests::report;
use level_tests::text::LINE;
use levelbook::REPORT_ROOM;

use crate::clock::least_of_both;
use crate::texts::{named, said, NAMES};

/// Rounds of about a millisecond for each time.
const ROUNDS: usize = 200;

fn proved(text: &[u8], buffer: &mut [u8]) -> usize {
    levelbook::reduce_into(black_box(text), buffer).expect("a text that is not too long")
}

fn plain(text: &[u8], buffer: &mut [u8]) -> usize {
    report::reduce_into(black_box(text), buffer).expect("a text that is not too long")
}

/// Over a buffer that is lent again and again and never cleared.
fn lent(text: &[u8]) -> [Duration; 2] {
    let (mut given, mut expected) = (vec![0; REPORT_ROOM], vec![0; REPORT_ROOM]);
    let lengths = [proved(text, &mut given), plain(text, &mut expected)];
    assert!(lengths[0] == lengths[1] && given == expected, "the reports differ");
    least_of_both(ROUNDS, &mut || _ = black_box(proved(text, &mut given)), &mut || _ = black_box(plain(text, &mut expected)))
}

/// Into a report of its own each time: the proved one's is 65,536 cleared bytes, the other's grows as it is written.
fn owned(text: &[u8]) -> [Duration; 2] {
    least_of_both(ROUNDS, &mut || _ = black_box(levelbook::reduce(black_box(text))), &mut || _ = black_box(report::reduce(black_box(text))))
}

fn microseconds(time: Duration) -> f64 {
    time.as_nanos() as f64 / 1_000.0
}

fn row(words: &str, [proved, plain]: [Duration; 2], lines: usize) {
    let [proved, plain] = [proved, plain].map(microseconds);
    println!("{words:<24}{proved:>10.2}{plain:>10.2}{:>8.2}{:>14.0}{:>12.0}", proved / plain, proved * 1e3 / lines as f64, plain * 1e3 / lines as f64);
}

/// The least times of many, in microseconds.
pub fn table() {
    let head = format!("{:>10}{:>10}{:>8}{:>14}{:>12}", "proved", "plain", "ratio", "ns a line", "plain's");
    println!("Microseconds a report, the least of {ROUNDS} rounds.");
    for name in NAMES {
        println!("  {name}: {}", said(name));
    }
    println!("\n{:<24}{head}", "Buffer lent, not cleared");
    NAMES.iter().for_each(|name| row(name, lent(&named(name)), named(name).len() / LINE));
    println!("\n{:<24}{head}", "A new buffer each time");
    NAMES.iter().for_each(|name| row(name, owned(&named(name)), named(name).len() / LINE));
    for name in ["largest", "late", "refusals"] {
        println!("\n{:<24}{head}", format!("{name}, first lines"));
        for lines in [1, 97, 194, 388, 777] {
            row(&lines.to_string(), lent(&named(name)[..lines * LINE]), lines);
        }
    }
}

/// One of them, so many times.
pub fn once(which: &str, text: &[u8], times: u32) {
    let reduce: fn(&[u8], &mut [u8]) -> usize = match which {
        "proved" => proved,
        "plain" => plain,
        _ => panic!("proved or plain, not {which}"),
    };
    let mut buffer = vec![0; REPORT_ROOM];
    (0..times).for_each(|_| _ = black_box(reduce(text, &mut buffer)));
}
