//! The package `levelbook` and the header for C, as those who embed the book use them.
use std::fs::{copy, create_dir_all, read_to_string, write, File};
use std::path::{Path, PathBuf};
use std::process::{Command, Output};

use level_tests::examples::{examples, path};
use level_tests::text::LONGEST_TEXT;
use levelbook::{meaning, reduce, reduce_into, Refusal, CALL_NUMBERS, FIGURES, MOST_WARNINGS, PROFILE_ROOM, REPORT_ROOM};

#[test]
fn the_examples() {
    for example in examples() {
        assert_eq!(reduce(&example.book), Ok(example.report.clone()), "{}", example.name);
        let mut buffer = vec![b'x'; REPORT_ROOM + 1];
        assert_eq!(reduce_into(&example.book, &mut buffer), Ok(example.report.len()), "{}", example.name);
        assert!(buffer.starts_with(&example.report), "{}", example.name);
    }
}

#[test]
fn refusals() {
    assert_eq!(levelbook::LONGEST_TEXT, LONGEST_TEXT);
    let text = vec![b' '; LONGEST_TEXT + 1];
    assert_eq!(reduce(&text), Err(Refusal::TextTooLong));
    assert_eq!(reduce_into(&text, &mut []), Err(Refusal::TextTooLong));
    assert_eq!(reduce_into(&text[1..], &mut vec![0; REPORT_ROOM - 1]), Err(Refusal::BufferTooShort));
    assert!(reduce(&text[1..]).is_ok());
    assert_eq!(Refusal::ListTooShort.to_string(), "refusal 13: height list shorter than the sections");
}

/// Number and meaning of each row of docs/REFUSALS.md.
fn page() -> Vec<(u8, String)> {
    let page = read_to_string(path("docs/REFUSALS.md")).expect("the page");
    let rows = page.lines().filter_map(|one| one.strip_prefix("| ")?.split_once(" | "));
    rows.filter_map(|(number, rest)| Some((number.parse().ok()?, rest.split(" | ").next()?.to_string()))).collect()
}

/// The table has a row for each number, in order, and the page has the same.
#[test]
fn meanings() {
    let table: Vec<(u8, String)> = (0..=255).filter_map(|number| Some((number, meaning(number)?.to_string()))).collect();
    assert_eq!(table, page());
    assert!((1..=13).chain(20..=36).chain(41..=46).chain([51, 52, 53, 56, 57]).all(|number| meaning(number).is_some()));
    let source = read_to_string(path("embed/refusals.def")).expect("the table");
    assert_eq!(source.lines().count(), 1 + table.len());
}

/// Compiles a program in C; a warning is an error.
fn compiled(name: &str, source: &Path, libraries: &[&str]) -> PathBuf {
    let program = Path::new(env!("CARGO_TARGET_TMPDIR")).join(name);
    let mut compiler = Command::new("cc");
    compiler.args(["-std=c99", "-Wall", "-Wextra", "-Werror", "-pedantic", "-I"]).arg(path("embed")).arg("-o").arg(&program).arg(source);
    compiler.args(libraries.iter().map(|name| path(&format!("target/staticlib/lib{name}.a"))));
    let Output { status, stderr, .. } = compiler.output().expect("cc runs");
    assert!(status.success(), "{}", String::from_utf8_lossy(&stderr));
    program
}

/// What a program in C prints of a book of examples/.
fn in_c(name: &str, program: &str, libraries: &[&str], book: &str) -> String {
    let source = Path::new(env!("CARGO_TARGET_TMPDIR")).join(format!("{name}.c"));
    write(&source, format!("#include \"levelbook.h\"\n#include <stdio.h>\nint main(void)\n{{\n{program}    return 0;\n}}\n")).expect("a file of the tests");
    let book = File::open(path(&format!("examples/{book}.book"))).expect("the book");
    let output = Command::new(compiled(name, &source, libraries)).stdin(book).output().expect("the program runs");
    String::from_utf8_lossy(&output.stdout).into_owned()
}

/// The header has the same meanings and the same numbers.
#[test]
fn the_header() {
    let program = r#"
    printf("%u %u %u %u\n", LEVEL_LONGEST_TEXT, LEVEL_REPORT_ROOM, LEVEL_CALL_NUMBERS, LEVEL_FIGURES);
    printf("%u %u\n", LEVEL_PROFILE_ROOM, LEVEL_MOST_WARNINGS);
    for (unsigned number = 0; number < 256; number++)
        if (level_refusal((uint8_t)number))
            printf("%u %s\n", number, level_refusal((uint8_t)number));
"#;
    let mut expected = format!("{} {REPORT_ROOM} {CALL_NUMBERS} {FIGURES}\n{PROFILE_ROOM} {MOST_WARNINGS}\n", levelbook::LONGEST_TEXT);
    page().iter().for_each(|(number, meaning)| expected.push_str(&format!("{number} {meaning}\n")));
    assert_eq!(in_c("header", program, &[], "case-a"), expected);
}

/// A list of entries in C: a call that is taken and a rest, with a place for the first number alone.
#[test]
fn a_list_in_c() {
    let program = r#"
    const int64_t list[LEVEL_CALL_NUMBERS + 1] = {1, 4, 3, 1, 10000, LEVEL_TENTHS};
    uint8_t numbers[2] = {99, 99};
    int64_t figures[LEVEL_FIGURES];
    const size_t entries = level_run(list, LEVEL_CALL_NUMBERS + 1, numbers, 1, figures, LEVEL_FIGURES);
    printf("%zu %u %u\n", entries, numbers[0], numbers[1]);
"#;
    assert_eq!(in_c("list", program, &["runner"], "case-a"), "2 0 99\n");
}

/// The profile of case A in C: a pair is in memory as it is written, and goes and comes by value.
#[test]
fn a_profile_in_c() {
    let program = r#"
    static uint8_t text[LEVEL_LONGEST_TEXT];
    struct level_pair pairs[LEVEL_PROFILE_ROOM / sizeof(struct level_pair)];
    size_t written = 7;
    const size_t length = fread(text, 1, sizeof text, stdin);
    const uint8_t refused = level_profile(text, length, (uint8_t *)pairs, 47, &written);
    printf("%u %zu\n", refused, written);
    const uint8_t taken = level_profile(text, length, (uint8_t *)pairs, sizeof pairs, &written);
    printf("%u %zu\n", taken, written);
    for (size_t k = 0; k < written / sizeof pairs[0]; k++) {
        const struct level_pair step = level_difference(pairs[k ? k - 1 : 0], pairs[k]);
        printf("%.17g %.17g %.17g %.17g\n", pairs[k].distance, pairs[k].height, step.distance, step.height);
    }
"#;
    let expected = "56 7\n0 48\n0 40000 0 0\n2564 42632 2564 2632\n4164 44832 1600 2200\n";
    assert_eq!(in_c("profile", program, &["levelbook"], "case-a"), expected);
}

/// Warnings of drift in C: two of them with a place for one, and a window that is refused.
#[test]
fn warnings_in_c() {
    let program = r#"
    static uint8_t text[LEVEL_LONGEST_TEXT];
    size_t firsts[2] = {7, 7}, count = 7;
    const size_t length = fread(text, 1, sizeof text, stdin);
    for (int64_t window = 2; window < 4; window++) {
        const uint8_t number = level_drift(text, length, window, firsts, 1, &count);
        printf("%u %zu %zu %zu\n", number, count, firsts[0], firsts[1]);
    }
"#;
    assert_eq!(in_c("warnings", program, &["levelbook"], "drift"), "51 7 7 7\n0 2 2 7\n");
}

/// A run shot again in C, two lines of a book's beginning: a judgement, and one that is refused.
#[test]
fn a_judgement_in_c() {
    let program = r#"
    static uint8_t text[LEVEL_LONGEST_TEXT];
    const size_t line = 84, length = fread(text, 1, sizeof text, stdin);
    const uint8_t *old = text + 7 * line, *new_run = text + 11 * line;
    uint8_t judgement = 7;
    if (length < 13 * line)
        return 1;
    for (int64_t order = 3; order < 6; order++) {
        const uint8_t number = level_judge(old, 2 * line, new_run, 2 * line, order, 1, order == 4 ? 990 : 982, 3612, &judgement);
        printf("%u %u\n", number, judgement);
    }
    const uint8_t number = level_judge(old, 2 * line - 1, new_run, 2 * line, 3, 1, 982, 3612, &judgement);
    printf("%u %d\n", number, judgement == LEVEL_NEW_RUN);
"#;
    assert_eq!(in_c("judgement", program, &["levelbook"], "return-again"), "0 1\n0 2\n3 2\n52 0\n");
}

/// Builds the package's example with the libraries of a folder.
fn built_with(folder: &Path) -> Output {
    let mut cargo = Command::new(env!("CARGO"));
    cargo.args(["run", "--quiet", "--offline", "--example", "reduce_file", "--manifest-path"]).arg(path("embed/Cargo.toml")).arg("--").arg(path("examples/case-a.book"));
    cargo.env("LEVELBOOK_LIB_DIR", folder).env("CARGO_TARGET_DIR", Path::new(env!("CARGO_TARGET_TMPDIR")).join("embed"));
    cargo.output().expect("cargo runs")
}

#[test]
fn the_folder_of_the_libraries() {
    let folder = Path::new(env!("CARGO_TARGET_TMPDIR")).join("libraries");
    create_dir_all(folder.join("none")).expect("a folder of the tests");
    for name in ["rootcalls", "adjust", "runner", "fieldbook", "levelbook"].map(|name| format!("lib{name}.a")) {
        copy(path("target/staticlib").join(&name), folder.join(&name)).expect("the library");
    }
    let output = built_with(&folder);
    assert_eq!(output.stdout, examples().remove(0).report, "{}", String::from_utf8_lossy(&output.stderr));
    let missing = built_with(&folder.join("none"));
    let complaint = String::from_utf8_lossy(&missing.stderr);
    assert!(!missing.status.success() && complaint.contains("none/librootcalls.a is missing") && complaint.contains("LEVELBOOK_LIB_DIR"), "{complaint}");
}

#[test]
fn the_example_in_c() {
    let program = compiled("example", &path("embed/example.c"), &["fieldbook", "adjust"]);
    for example in examples() {
        let book = File::open(path(&format!("examples/{}.book", example.name))).expect("the book");
        let output = Command::new(&program).stdin(book).output().expect("the example runs");
        assert_eq!((output.status.code(), output.stdout), (Some(0), example.report), "{}", example.name);
    }
    let adjusted = Command::new(&program).arg("adjust").output().expect("the example runs");
    assert_eq!(adjusted.stdout, b"tenths of a mm: 106568 112060\nwhole mm: 10657 11206\n");
    let folder = Command::new(&program).stdin(File::open(path("examples")).expect("a folder")).output().expect("the example runs");
    assert_eq!((folder.status.code(), &folder.stdout[..]), (Some(1), &b""[..]));
    let long = Path::new(env!("CARGO_TARGET_TMPDIR")).join("long.book");
    write(&long, [b' '; LONGEST_TEXT + 1]).expect("a file of the tests");
    let refused = Command::new(&program).stdin(File::open(&long).expect("the book")).output().expect("the example runs");
    assert_eq!((refused.status.code(), &refused.stderr[..]), (Some(1), &b"refusal 9: text above 65,268 bytes (777 lines)\n"[..]));
}
