//! The program `reduce` beside `cat` of the same text.
use std::fs::{write, File};
use std::path::{Path, PathBuf};
use std::process::{Command, Stdio};
use std::time::{Duration, Instant};

use level_tests::examples::path;

/// Runs of each program.
const RUNS: usize = 1_000;

/// From before the program starts until it has ended, from a file to /dev/null.
fn run(program: &Path, text: &Path) -> Duration {
    let mut command = Command::new(program);
    command.stdin(File::open(text).expect("the text")).stdout(Stdio::null());
    let begin = Instant::now();
    let status = command.status().expect("the program runs");
    let time = begin.elapsed();
    assert!(status.success(), "{} ended with {status}", program.display());
    time
}

/// Least and median, in microseconds, by turns.
pub fn table(text: &[u8]) {
    let file = PathBuf::from(env!("CARGO_MANIFEST_DIR")).join("target/whole.book");
    write(&file, text).expect("the text is written");
    let reduce = path("target/bin/reduce");
    assert!(reduce.is_file(), "{} is missing: run `tools/build` first", reduce.display());
    let programs = [("reduce", reduce), ("cat", "/bin/cat".into()), ("true", "/bin/true".into())];
    let mut times = [const { Vec::new() }; 3];
    for _ in 0..RUNS {
        for (times, (_, program)) in times.iter_mut().zip(&programs) {
            times.push(run(program, &file));
        }
    }
    times.iter_mut().for_each(|times| times.sort());
    let micros = |time: Duration| time.as_nanos() as f64 / 1_000.0;
    let [least, median] = [0, RUNS / 2].map(|k| times.each_ref().map(|times| micros(times[k])));
    println!("{:<24}{:>10}{:>10}", format!("Microseconds, {RUNS} runs"), "least", "median");
    for (k, (name, _)) in programs.iter().enumerate() {
        println!("{name:<24}{:>10.0}{:>10.0}", least[k], median[k]);
    }
    println!("{:<24}{:>10.2}{:>10.2}", "reduce / cat", least[0] / least[1], median[0] / median[1]);
}
