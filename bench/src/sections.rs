//! What a call takes by the number of finished sections, from lists of calls on a line of fourth order.
use std::hint::black_box;
use std::time::Duration;

use level_tests::figures::{figures_of, read, FIGURES};
use level_tests::largest::sixty_four_sections;
use level_tests::plain::Call;
use level_tests::rules::Class;
use level_tests::write::numbers_of;
use levelbook::CALL_NUMBERS;

use crate::clock::least_of_both;

/// How many sections stand.
pub const COUNTS: [usize; 3] = [0, 16, 64];

/// How often the calls follow in a list.
pub const TURNS: usize = 200;

/// The calls that are timed, by name. Where 64 sections stand no run can be ended, so the lift comes first there.
pub const NAMES: [&str; 4] = ["station", "drop", "section", "none"];

/// What the calls of each name are.
pub fn said(name: &str) -> &'static str {
    match name {
        "station" => "two stations and a drop of their run",
        "drop" => "a drop",
        "section" => "two stations, the end of their run, and a lift of the section",
        _ => "no call",
    }
}

/// The opening and so many sections.
fn standing(sections: usize) -> Vec<Call> {
    let mut calls = sixty_four_sections(Class::Fourth, 64);
    let ends = (0..calls.len()).filter(|&k| matches!(calls[k], Call::EndRun(_)));
    let begin = calls.iter().position(|call| matches!(call, Call::Station { .. })).expect("a station");
    let length = [begin].into_iter().chain(ends.map(|end| end + 1)).nth(sections).expect("so many sections");
    calls.truncate(length);
    calls
}

/// So many sections, and then the calls of this name so many times.
fn list(name: &str, sections: usize) -> Vec<Call> {
    let mut calls = standing(sections);
    let [first, second] = [0, 1].map(|k| standing(1)[standing(0).len() + k].clone());
    let mut turn = match name {
        "station" => vec![first, second, Call::DropRun],
        "drop" => vec![Call::DropRun],
        "section" => vec![first, second, Call::EndRun(9_999), Call::LiftSection],
        "none" => vec![],
        _ => panic!("no calls {name}: one of {NAMES:?}"),
    };
    if sections == 64 && name == "section" {
        turn.rotate_right(1);
    }
    calls.extend(turn.iter().cycle().take(TURNS * turn.len()).cloned());
    calls
}

/// The list by the proved book or by the other implementation, ready to be run.
fn job(which: &str, name: &str, sections: usize) -> Box<dyn FnMut()> {
    let calls = list(name, sections);
    assert!(read(&calls).0.iter().all(|&number| number == 0), "a call of {name} is refused");
    match which {
        "proved" => {
            let entry = |call: &Call| [numbers_of(call), vec![0; CALL_NUMBERS]].concat().into_iter().take(CALL_NUMBERS);
            let list: Vec<i64> = calls.iter().flat_map(entry).collect();
            let (mut numbers, mut figures) = (vec![0; calls.len()], vec![0; FIGURES]);
            Box::new(move || _ = black_box(levelbook::run(black_box(&list), &mut numbers, &mut figures)))
        }
        "plain" => Box::new(move || {
            let (numbers, reading, closed) = read(black_box(&calls));
            _ = black_box((numbers, figures_of(&reading, &closed)));
        }),
        _ => panic!("proved or plain, not {which}"),
    }
}

/// Nanoseconds of one turn, of both: of the list less those of the sections alone.
fn times(name: &str, sections: usize) -> [f64; 2] {
    let least = |name| least_of_both(50, &mut job("proved", name, sections), &mut job("plain", name, sections));
    let nanoseconds = |time: Duration| time.as_nanos() as f64 / TURNS as f64;
    let [with, without] = [least(name), least("none")].map(|both| both.map(nanoseconds));
    [0, 1].map(|k| with[k] - without[k])
}

/// By the number of sections that stand, the proved book's and the other's.
pub fn table() {
    println!("\nNanoseconds by the number of finished sections, the proved book's and the plain one's.");
    NAMES[..3].iter().for_each(|name| println!("  {name}: {}", said(name)));
    println!("{:<24}{}", "", COUNTS.map(|count| format!("{count:>10}{:>10}", "plain")).concat());
    for name in &NAMES[..3] {
        let row = COUNTS.map(|count| times(name, count).map(|time| format!("{time:>10.0}")).concat());
        println!("{name:<24}{}", row.concat());
    }
}

/// One list, so many times.
pub fn once(which: &str, name: &str, sections: usize, times: u32) {
    let mut job = job(which, name, sections);
    (0..times).for_each(|_| job());
}
