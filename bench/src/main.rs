//! The proved function's time beside the other implementation's, on the same texts.
//!
//! `bench` prints the times of both functions, the times by number of lines and those of calls by number of sections. `bench once proved|plain TEXT N`
//! reduces one text N times by one of them and does nothing else, so that its instructions can be counted; `bench calls proved|plain NAME SECTIONS N`
//! runs a list of calls so. `bench whole TEXT` times the program `reduce` beside `cat`. `bench texts` lists the texts.

mod clock;
mod functions;
mod sections;
mod texts;
mod whole;

fn main() {
    let words: Vec<String> = std::env::args().skip(1).collect();
    let words: Vec<&str> = words.iter().map(String::as_str).collect();
    match words[..] {
        [] => {
            functions::table();
            sections::table();
        }
        ["once", which, text, times] => functions::once(which, &texts::named(text), times.parse().expect("a number of times")),
        ["calls", which, name, sections, times] => sections::once(which, name, sections.parse().expect("a number of sections"), times.parse().expect("a number of times")),
        ["whole", text] => whole::table(&texts::named(text)),
        ["texts"] => texts::NAMES.iter().for_each(|name| println!("{name}")),
        _ => {
            eprintln!("bench | bench once proved|plain TEXT N | bench calls proved|plain NAME SECTIONS N | bench whole TEXT | bench texts");
            std::process::exit(2);
        }
    }
}
