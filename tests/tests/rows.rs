//! The tool that sets rows written by hand in the columns of a text book.
use std::io::Write;
use std::ops::RangeInclusive;
use std::process::{Command, Output, Stdio};

use level_tests::examples::{examples, path};
use level_tests::text::{fields_of, number, number_of_blanks, FIELD};
use level_tests::write::{filled, heading, line};

fn run(arguments: &[&str], rows: &[u8]) -> Output {
    let mut tool = Command::new(path("tools/rows"));
    tool.args(arguments).stdin(Stdio::piped()).stdout(Stdio::piped()).stderr(Stdio::piped());
    let mut child = tool.spawn().expect("tools/rows runs");
    // Asked for its usage, it goes without reading.
    let _ = child.stdin.take().expect("its input").write_all(rows);
    child.wait_with_output().expect("its output")
}

/// The book that rows give.
fn book(rows: &str) -> String {
    let output = run(&[], rows.as_bytes());
    assert_eq!((output.status.code(), &output.stderr[..]), (Some(0), &b""[..]), "{rows}");
    words(output.stdout)
}

/// What is said of rows that cannot be written.
fn refused(rows: &str) -> String {
    let output = run(&[], rows.as_bytes());
    assert_eq!((output.status.code(), &output.stdout[..]), (Some(1), &b""[..]), "{rows}");
    words(output.stderr)
}

fn words(bytes: Vec<u8>) -> String {
    String::from_utf8(bytes).expect("words")
}

fn headed(lines: &[&str]) -> String {
    words(heading().into_iter().chain(lines.iter().flat_map(|one| filled(one))).collect())
}

#[test]
fn the_examples() {
    let mut count = 0;
    for example in examples() {
        if let Some(rows) = example.rows {
            assert_eq!(book(&words(rows)), words(example.book), "{}", example.name);
            count += 1;
        }
    }
    assert!(count >= 6, "{count} examples with rows");
}

#[test]
fn the_heading() {
    assert_eq!(book("DRR\n"), headed(&["DRR"]));
    assert_eq!(book("# remark\n\n  LEVEL   BOOK\nDRR\n"), headed(&["DRR"]));
    assert_eq!(refused("DRR\nLEVEL BOOK\n"), "rows: row 2: LEVEL BOOK stands in the first row only\n");
    assert_eq!(refused("LEVEL BOOK\nLEVEL BOOK\n"), "rows: row 2: LEVEL BOOK stands in the first row only\n");
    assert_eq!(refused("Level Book\nDRR\n"), "rows: row 1: LEVEL BOOK is written in capitals\n");
}

#[test]
fn blanks_remarks_and_ends_of_rows() {
    let expected = headed(&["RUN       2", "END       3  -11206"]);
    assert_eq!(book("RUN 2\nEND 3 -11206\n"), expected);
    assert_eq!(book("\n \nRUN\t 2  \n#RUN 3\n  # RUN 4\nEND   3 -11206"), expected);
    assert_eq!(book("RUN 2# the first\nEND 3 -11206 # RUN 4 # RUN 5\n"), expected);
    assert_eq!(book("RUN 2\r\n\r\nEND 3 -11206\r\n"), expected);
    assert_eq!(book("\u{feff}RUN 2\nEND 3 -11206\n"), expected);
}

/// A book whose line ends and blanks are damaged is mended.
#[test]
fn books() {
    for example in examples().into_iter().filter(|one| one.rows.is_some()) {
        let whole = words(example.book);
        let stripped: String = whole.lines().map(|one| format!("{}\n", one.trim_end())).collect();
        for damaged in [whole.clone(), stripped.clone(), stripped.replace('\n', "\r\n"), whole.replace('\n', "\r\n"), format!("\u{feff}{whole}")] {
            assert_eq!(book(&damaged), whole, "{}", example.name);
        }
    }
}

#[test]
fn no_rows() {
    for rows in ["", "\n", "# remark\n\n", "LEVEL BOOK\n", "\u{feff}"] {
        assert_eq!(refused(rows), "rows: no rows: a book has at least one record\n");
    }
}

/// The tool's table of records, from its usage: the tag, and how many numbers it may have.
fn records() -> Vec<(String, RangeInclusive<usize>)> {
    let usage = words(run(&["-h"], b"").stdout);
    let last = usage.lines().last().expect("its last line").trim_end_matches('.');
    let (_, records) = last.split_once(": ").expect("the records");
    let counts = |words: &str| {
        let (fewest, most) = words.split_once(" or ").unwrap_or((words, words));
        let count = |one: &str| one.parse::<usize>().expect("a count");
        count(fewest)..=count(most)
    };
    records.split(", ").map(|one| one.split_once(' ').expect("a tag and a count")).map(|(tag, words)| (tag.to_string(), counts(words))).collect()
}

/// The refusal of line 2 of a book, if it has one.
fn refusal_of_line_2(book: &[u8]) -> Option<i64> {
    let report = levelbook::reduce(book).expect("a short book");
    let line = report.chunks(84).find(|one| one.starts_with(b"REF       2"))?;
    number(&line[11..19])
}

/// The tool knows the records that the other implementation knows, how many numbers each has, and how many of them no blanks stand for.
#[test]
fn the_records() {
    let records = records();
    for tag in (0..26 * 26 * 26).map(|k| [k / 676, k / 26 % 26, k % 26].map(|letter| b'A' + letter as u8)) {
        let counts = records.iter().find(|one| one.0.as_bytes() == tag).map(|one| one.1.clone());
        let needed = |fields: usize| (0..fields).filter(|&field| number_of_blanks(&tag, field).is_none()).count();
        assert_eq!(counts, fields_of(&tag).map(|fields| needed(fields)..=fields), "{}", String::from_utf8_lossy(&tag));
    }
}

/// What the tool takes, the proved book does not refuse with 1 or 2; what has a number too few or too many, neither takes.
#[test]
fn how_many_numbers() {
    for (tag, counts) in records() {
        let row = |many| format!("{tag}{}\n", " 4".repeat(many));
        let (fewest, most) = (*counts.start(), *counts.end());
        assert!(counts.into_iter().all(|count| !matches!(refusal_of_line_2(book(&row(count)).as_bytes()), Some(1 | 2))), "{tag}");
        let needs = if fewest == most { most.to_string() } else { format!("{fewest} or {most}") };
        for many in [fewest.wrapping_sub(1), most + 1].into_iter().filter(|&many| many <= 11) {
            let s = if many == 1 { "" } else { "s" };
            assert_eq!(refused(&row(many)), format!("rows: row 1: {tag} has {many} number{s}, needs {needs}\n"));
            // eleven have no room in a line
            let text = [heading(), line(&tag, &vec![4; many.min(10)]).expect("small numbers")].concat();
            assert!(many > 10 || matches!(refusal_of_line_2(&text), Some(1 | 2)), "{tag}");
        }
    }
}

/// The last number of LIN and SPR may be left out, and its field is blank then.
#[test]
fn the_print_unit() {
    let opened = |tag: &str, field: &str| format!("{tag}       4       3       1   10000{field}");
    for tag in ["LIN", "SPR"] {
        for (number, field) in [("", ""), ("1", "       1"), ("10", "      10")] {
            assert_eq!(book(&format!("{tag} 4 3 1 10000 {number}\n")), headed(&[&opened(tag, field)]));
        }
        assert_eq!(refused(&format!("{tag} 4 3 1 10000 0.1\n")), "rows: row 1: field 5: 0.1: a whole number, no point or comma\n");
    }
}

/// Fields, and what is said of those that are no numbers of the book.
const FIELDS: [(&str, &str); 20] = [
    ("0", ""),
    ("-1", ""),
    ("12345678", ""),
    ("-1234567", ""),
    ("123456789", "longer than 8 columns"),
    ("-12345678", "longer than 8 columns"),
    ("2.121", "whole millimetres, no point or comma"),
    ("-2,121", "whole millimetres, no point or comma"),
    ("1.", "whole millimetres, no point or comma"),
    ("1,000,000", "whole millimetres, no point or comma"),
    ("+1", "no plus"),
    ("01", "no leading zero"),
    ("-00", "no leading zero"),
    ("-0", "0 has no minus"),
    ("-", "not a number"),
    ("1-", "not a number"),
    ("1O00", "not a number"),
    ("1e3", "not a number"),
    ("BM2", "not a number"),
    ("\u{2212}5", "not a number"),
];

/// A blank field of a book's line is named: what stands behind it would close up into its place.
#[test]
fn a_blank_field_of_a_book() {
    for record in ["LIN       4       3       1              10", "SPR       4       3   10000              10", "SPR       4       3               0       1"] {
        assert_eq!(refused(&headed(&[record])), "rows: row 2: a field before the last one is blank\n", "{record}");
    }
    let blank_unit = "SPR       4       3       1   10000";
    assert_eq!(book(&headed(&[blank_unit])), headed(&[blank_unit]));
}

/// A field is taken where the other implementation reads a number.
#[test]
fn the_numbers() {
    for (field, what) in FIELDS {
        let fits = field.len() <= FIELD && number(format!("{field:>FIELD$}").as_bytes()).is_some();
        assert_eq!(what.is_empty(), fits, "{field}");
        let row = format!("DRR\nEND 4 {field}\n");
        if fits {
            assert_eq!(book(&row), headed(&["DRR", &format!("END       4{field:>FIELD$}")]));
        } else {
            assert_eq!(refused(&row), format!("rows: row 2: field 2: {field}: {what}\n"));
        }
    }
    assert_eq!(refused("RUN 1.5\n"), "rows: row 1: field 1: 1.5: a whole number, no point or comma\n");
    assert_eq!(refused("KON 46873 4786.6\n"), "rows: row 1: field 2: 4786.6: whole tenths of a millimetre, no point or comma\n");
}

#[test]
fn rows_that_are_no_records() {
    assert_eq!(refused("# remark\nSTAT 1\n"), "rows: row 2: STAT: no such tag; there are LIN STA RUN DRR DRS END SPR FIN ANG KON LFT\n");
    assert_eq!(refused("DRR\n\nrun 2\n"), "rows: row 3: run: tags are written in capitals, RUN\n");
    assert_eq!(refused("Run 2.5\n"), "rows: row 1: Run: tags are written in capitals, RUN\nrows: row 1: field 1: 2.5: a whole number, no point or comma\n");
    assert_eq!(refused("RUN BM 2\n"), "rows: row 1: RUN has 2 numbers, needs 1\nrows: row 1: field 1: BM: not a number\n");
    assert_eq!(refused("RUN 2\nRUN 123456789\nDRR\nSTAT 1\n").lines().count(), 2);
}

/// With -n, each row behind its text line.
#[test]
fn the_lines_of_rows() {
    let output = run(&["-n"], b"\xef\xbb\xbf# remark\r\nLIN 4 3 1 10000 # open\n\n  RUN  2\n");
    assert_eq!((output.status.code(), &output.stderr[..]), (Some(0), &b""[..]));
    assert_eq!(words(output.stdout), "      # remark\n   2  LIN 4 3 1 10000 # open\n      \n   3    RUN  2\n");
    assert_eq!(words(run(&["-n"], b"LEVEL BOOK\nDRR\n").stdout), "   1  LEVEL BOOK\n   2  DRR\n");
    let wrong = run(&["-n"], b"RUN 2\nRUN\n");
    assert_eq!((wrong.status.code(), &wrong.stdout[..]), (Some(1), &b""[..]));
    assert_eq!(words(wrong.stderr), "rows: row 2: RUN has 0 numbers, needs 1\n");
}

#[test]
fn usage() {
    let asked = run(&["-h"], b"");
    assert_eq!((asked.status.code(), asked.stderr.len()), (Some(0), 0));
    assert!(asked.stdout.starts_with(b"usage: tools/rows"));
    for arguments in [&["case-a.rows"][..], &["-n", "case-a.rows"], &["-x"]] {
        let wrong = run(arguments, b"");
        assert_eq!((wrong.status.code(), wrong.stdout.len()), (Some(2), 0));
        assert_eq!(wrong.stderr, asked.stdout);
    }
}
