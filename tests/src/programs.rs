//! The programs of target/bin.

use std::io::Write;
use std::path::PathBuf;
use std::process::{Command, Stdio};
use std::thread::spawn;

use crate::examples::path;

pub fn program(name: &str) -> PathBuf {
    let program = path("target/bin").join(name);
    assert!(program.is_file(), "{} is missing: run `tools/build` first", program.display());
    program
}

/// What a program prints of an input that comes through a pipe; it ends by itself, without a complaint.
pub fn printed(name: &str, arguments: &[&str], input: &[u8]) -> Vec<u8> {
    let mut command = Command::new(program(name));
    command.args(arguments).stdin(Stdio::piped()).stdout(Stdio::piped()).stderr(Stdio::piped());
    let mut child = command.spawn().expect("the program starts");
    let (mut pipe, input) = (child.stdin.take().expect("its input"), input.to_vec());
    // a program that has seen enough reads no further
    let feed = spawn(move || drop(pipe.write_all(&input)));
    let output = child.wait_with_output().expect("the program runs");
    feed.join().expect("its input");
    assert_eq!((String::from_utf8_lossy(&output.stderr), output.status.code()), ("".into(), Some(0)), "{name} {arguments:?}");
    output.stdout
}
