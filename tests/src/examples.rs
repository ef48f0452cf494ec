//! The books of examples/ with their reports.

use std::fs;
use std::path::PathBuf;

/// `rows` is the book as written by hand; a damaged book has none.
pub struct Example {
    pub name: String,
    pub rows: Option<Vec<u8>>,
    pub book: Vec<u8>,
    pub report: Vec<u8>,
}

/// A path given from the root of the repository.
pub fn path(below: &str) -> PathBuf {
    PathBuf::from(env!("CARGO_MANIFEST_DIR")).join("..").join(below)
}

/// All of them, in the order of their names.
pub fn examples() -> Vec<Example> {
    let folder = path("examples");
    let files = fs::read_dir(&folder).expect("the folder examples").map(|file| file.expect("a file of examples").path());
    let mut names: Vec<String> = files
        .filter(|file| file.extension().is_some_and(|end| end == "book"))
        .map(|file| file.file_stem().expect("a name").to_string_lossy().into_owned())
        .collect();
    names.sort();
    assert!(names.len() >= 8, "the books of examples: {names:?}");
    names.into_iter().map(example).collect()
}

/// The book of one of them.
pub fn book(name: &str) -> Vec<u8> {
    example(name.to_string()).book
}

fn example(name: String) -> Example {
    let file = |end: &str| path("examples").join(format!("{name}.{end}"));
    let whole = |end: &str| fs::read(file(end)).unwrap_or_else(|error| panic!("{name}.{end}: {error}"));
    let rows = file("rows").exists().then(|| whole("rows"));
    let (book, report) = (whole("book"), whole("report"));
    Example { name, rows, book, report }
}
