//! Lists of calls and text books, each run by the proved book and by the other implementation: what both have, which must be the same.

use std::sync::LazyLock;

use crate::drift::drift_into;
use crate::figures::{figures_of, read, FIGURES};
use crate::plain::Call;
use crate::profile::profile_into;
use crate::repeat::{judge, Given, Judgement};
use crate::report::{reduce_into, SHORTEST_BUFFER};
use crate::text::LINE;
use crate::write::{filled, numbers_of};
use levelbook::raw::{level_drift, level_judge, level_profile, level_reduce};
use levelbook::{standing_lines, OppositeRun};

/// The answers, and the figures of the book at the end.
pub fn run(calls: &[Call]) -> (Vec<u8>, Vec<i64>) {
    let list: Vec<i64> = calls.iter().flat_map(|call| [numbers_of(call), vec![0; 11]].concat().into_iter().take(11)).collect();
    let (mut numbers, mut figures) = (vec![99; calls.len()], vec![-1; FIGURES]);
    assert_eq!(levelbook::run(&list, &mut numbers, &mut figures), calls.len());
    let (expected, reading, closed) = read(calls);
    assert_eq!((&numbers, &figures), (&expected, &figures_of(&reading, &closed)), "{calls:?}");
    (numbers, figures)
}

/// The answers of the calls that follow others, which are all taken.
pub fn after(before: &[Call], calls: &[Call]) -> Vec<u8> {
    let (numbers, _) = run(&[before, calls].concat());
    let (taken, rest) = numbers.split_at(before.len());
    assert!(taken.iter().all(|&number| number == 0), "{taken:?}");
    rest.to_vec()
}

/// The figures after calls that are all taken.
pub fn figures(calls: &[Call]) -> Vec<i64> {
    let (numbers, figures) = run(calls);
    assert_eq!(numbers, vec![0; calls.len()]);
    figures
}

/// Bytes that no report has.
static DIRT: LazyLock<Vec<u8>> = LazyLock::new(|| (0..1 << 20).map(|k| 128 + (k % 127) as u8).collect());

pub fn words(bytes: &[u8]) -> String {
    String::from_utf8_lossy(bytes).into_owned()
}

/// A length that no call writes.
const UNWRITTEN: usize = usize::MAX;

/// A proved call on a text that writes into a list and leaves a length, and the other implementation's, over the same dirty list: what is written, or the number
/// of the refusal.
fn written<T: Copy + PartialEq>(
    text: &[u8],
    dirt: &[T],
    proved: impl Fn(&mut [T], &mut usize) -> u8,
    other: impl Fn(&mut [T]) -> Result<usize, u8>,
    show: impl Fn(&[T]) -> String,
) -> Result<Vec<T>, u8> {
    let (mut given, mut expected, mut length) = (dirt.to_vec(), dirt.to_vec(), UNWRITTEN);
    let answer = (proved(&mut given, &mut length), length);
    let wanted = other(&mut expected);
    if answer != wanted.map_or_else(|number| (number, UNWRITTEN), |length| (0, length)) || given != expected {
        let place = given.iter().zip(&expected).position(|(one, other)| one != other);
        let [given, expected] = [&given, &expected].map(|one| show(&one[..one.len().min(wanted.unwrap_or(0) + LINE)]));
        panic!("{answer:?} for {wanted:?}, first difference at {place:?}; text\n{}\ngiven\n{given}\nexpected\n{expected}", words(text));
    }
    let length = wanted.inspect_err(|_| assert!(given == dirt, "a refusal touched the list"))?.min(dirt.len());
    assert!(given[length..] == dirt[length..], "places beyond what is written");
    given.truncate(length);
    Ok(given)
}

/// The report in a buffer of so many bytes.
pub fn report_in(text: &[u8], places: usize) -> Result<Vec<u8>, u8> {
    // SAFETY: as in `levelbook::reduce_into`, which does not show what is left of the length by a refusal.
    let proved = |buffer: &mut [u8], length: &mut usize| unsafe { level_reduce(text.as_ptr(), text.len(), buffer.as_mut_ptr(), buffer.len(), length) };
    let report = written(text, &DIRT[..places], proved, |buffer| reduce_into(text, buffer), words)?;
    assert!(has_the_form_of_a_report(&report), "{}", words(&report));
    Ok(report)
}

/// The same with the shortest buffer.
pub fn report(text: &[u8]) -> Result<Vec<u8>, u8> {
    report_in(text, SHORTEST_BUFFER)
}

/// The pairs of a line for the plotter in a buffer of so many bytes.
pub fn profile_in(text: &[u8], places: usize) -> Result<Vec<u8>, u8> {
    // SAFETY: as in `levelbook::profile_into`, which does not show what is left of the length by a refusal.
    let proved = |buffer: &mut [u8], length: &mut usize| unsafe { level_profile(text.as_ptr(), text.len(), buffer.as_mut_ptr(), buffer.len(), length) };
    written(text, &DIRT[..places], proved, |buffer| profile_into(text, buffer), |pairs| format!("{pairs:?}"))
}

/// The warnings of drift, as many as there are places for.
pub fn drift_in(text: &[u8], window: i64, places: usize) -> Result<Vec<usize>, u8> {
    // SAFETY: as in `levelbook::drift_into`, which does not show what is left of the count by a refusal.
    let proved = |firsts: &mut [usize], count: &mut usize| unsafe { level_drift(text.as_ptr(), text.len(), window, firsts.as_mut_ptr(), firsts.len(), count) };
    let dirt: Vec<usize> = (1_000..1_000 + places).collect();
    written(text, &dirt, proved, |firsts| drift_into(text, window, firsts), |firsts| format!("{firsts:?}"))
}

/// A judgement that no call writes.
const UNJUDGED: u8 = 77;

/// What is judged of a run shot again, or the number of the refusal. The lines that stand are those of the texts themselves.
pub fn judged(first: &[u8], second: &[u8], given: Given) -> Result<Judgement, u8> {
    let Given { order, instrument, g, s } = given;
    let mut judgement = UNJUDGED;
    // SAFETY: as in `levelbook::judge`, which does not show what is left of the judgement by a refusal.
    let number = unsafe { level_judge(first.as_ptr(), first.len(), second.as_ptr(), second.len(), order, instrument, g, s, &mut judgement) };
    let expected = judge(first, second, given);
    let wanted = match expected {
        Ok(Judgement::New) => (0, 1),
        Ok(Judgement::Mean) => (0, 2),
        Ok(Judgement::Opposite) => (0, 3),
        Err(number) => (number, UNJUDGED),
    };
    assert_eq!((number, judgement), wanted, "{given:?}; texts\n{}\n\n{}", words(first), words(second));
    let lines = standing_lines(first, second, order, instrument, OppositeRun { twice_height: g, sights: s });
    let standing = match expected {
        Ok(Judgement::New) => Ok(second),
        Ok(Judgement::Mean) => Ok(first),
        Ok(Judgement::Opposite) => Ok(&first[..0]),
        Err(number) => Err(number),
    };
    assert_eq!(lines.map(<[u8]>::as_ptr_range).map_err(levelbook::Refusal::number), standing.map(<[u8]>::as_ptr_range));
    expected
}

/// Whole lines of 83 columns, the title, one end.
fn has_the_form_of_a_report(report: &[u8]) -> bool {
    let shaped = report.chunks(LINE).all(|one| one.len() == LINE && one[83] == b'\n' && one[..83].is_ascii());
    let ends = report.chunks(LINE).filter(|one| one.starts_with(b"CLO") || one.starts_with(b"OPN")).count();
    shaped && report.starts_with(&filled("REDUCED LEVELS")) && ends == 1
}
