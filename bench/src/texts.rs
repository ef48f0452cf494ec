//! The texts that are timed, by name.
use level_tests::examples::book;
use level_tests::largest::{blank_lines, largest_book, refused_late, refused_stations};
use level_tests::rules::Class;

pub const NAMES: [&str; 6] = ["largest", "third", "late", "refusals", "blank", "case-a"];

/// What each text is.
pub fn said(name: &str) -> &'static str {
    match name {
        "largest" => "777 lines, fourth order, 64 sections, closed",
        "third" => "777 lines, third order, 64 sections out and back, closed",
        "late" => "777 lines, fourth order, 64 sections in the first 195, then refused ends of runs, closed",
        "refusals" => "777 lines, 776 stations on a book never opened",
        "blank" => "777 lines, 776 of them blank",
        _ => "10 lines, 2 sections, closed",
    }
}

pub fn named(name: &str) -> Vec<u8> {
    match name {
        "largest" => largest_book(Class::Fourth),
        "third" => largest_book(Class::Third),
        "late" => refused_late(Class::Fourth),
        "refusals" => refused_stations(),
        "blank" => blank_lines(),
        "case-a" => book("case-a"),
        _ => panic!("no text {name}: one of {NAMES:?}"),
    }
}
