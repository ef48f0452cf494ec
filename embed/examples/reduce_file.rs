//! Prints the report of the text book in a file. In the folder embed/: `cargo run --example reduce_file -- ../examples/case-a.book`
use std::error::Error;
use std::io::Write;

fn main() -> Result<(), Box<dyn Error>> {
    let file = std::env::args().nth(1).ok_or("usage: reduce_file FILE")?;
    let report = levelbook::reduce(&std::fs::read(file)?)?;
    std::io::stdout().write_all(&report)?;
    Ok(())
}
