//! The program `reduce`, from standard input to standard output.
use std::fs::File;
use std::io::{Read, Write};
use std::net::{TcpListener, TcpStream};
use std::os::fd::OwnedFd;
use std::path::PathBuf;
use std::process::{Child, ChildStdin, Command, ExitStatus, Stdio};
use std::thread::{sleep, spawn};
use std::time::{Duration, Instant};

use level_tests::examples::{book, examples, path};
use level_tests::largest::blank_lines;
use level_tests::report::printed;
use level_tests::text::LONGEST_TEXT;
use level_tests::write::filled;

/// After so long the program is taken to hang.
const PATIENCE: Duration = Duration::from_secs(20);

fn program() -> PathBuf {
    level_tests::programs::program("reduce")
}

fn start() -> Child {
    let mut command = Command::new(program());
    command.stdin(Stdio::piped()).stdout(Stdio::piped()).stderr(Stdio::piped());
    command.spawn().expect("the program starts")
}

/// Waits for the program to end by itself.
fn ended(child: &mut Child) -> ExitStatus {
    let begin = Instant::now();
    loop {
        if let Some(status) = child.try_wait().expect("its status") {
            return status;
        }
        if begin.elapsed() > PATIENCE {
            let _ = child.kill();
            panic!("the program does not end");
        }
        sleep(Duration::from_millis(2));
    }
}

fn all(mut from: impl Read) -> String {
    let mut bytes = Vec::new();
    from.read_to_end(&mut bytes).expect("what it wrote");
    String::from_utf8(bytes).expect("words")
}

/// What the program prints while another thread feeds it; it ends without a complaint.
fn fed(feed: impl FnOnce(ChildStdin) + Send + 'static) -> String {
    let mut child = start();
    let input = child.stdin.take().expect("its input");
    let (output, complaint) = (child.stdout.take().expect("its output"), child.stderr.take().expect("its complaints"));
    let output = spawn(move || all(output));
    spawn(move || feed(input));
    let status = ended(&mut child);
    assert_eq!((all(complaint), status.code()), (String::new(), Some(0)));
    output.join().expect("its output")
}

/// The report of a text fed in pieces of so many bytes.
fn in_pieces(text: Vec<u8>, bytes: usize, pause: Duration) -> String {
    fed(move |mut input| {
        for piece in text.chunks(bytes) {
            input.write_all(piece).expect("the program reads");
            sleep(pause);
        }
    })
}

fn through_a_pipe(text: Vec<u8>) -> String {
    in_pieces(text, usize::MAX, Duration::ZERO)
}

fn expected(text: &[u8]) -> String {
    all(&printed(text)[..])
}

/// What is printed of a text that is too long.
fn too_long() -> String {
    all(&filled("REF       0       9")[..])
}

#[test]
fn the_examples() {
    for example in examples() {
        assert_eq!(through_a_pipe(example.book), all(&example.report[..]), "{}", example.name);
    }
}

#[test]
fn the_examples_from_a_file() {
    for example in examples() {
        let file = File::open(path(&format!("examples/{}.book", example.name))).expect("the book");
        let output = Command::new(program()).stdin(file).output().expect("the program runs");
        assert_eq!(all(&output.stdout[..]), all(&example.report[..]), "{}", example.name);
    }
}

#[test]
fn small_pieces_with_pauses() {
    let text = book("case-a");
    for (bytes, pause) in [(1, 0), (7, 1), (83, 5), (85, 5), (200, 50)] {
        assert_eq!(in_pieces(text.clone(), bytes, Duration::from_millis(pause)), expected(&text), "{bytes} bytes at a time");
    }
}

#[test]
fn no_input() {
    let refused = ["REDUCED LEVELS", "REF       1       1", "OPN       0"].map(filled).concat();
    assert_eq!(through_a_pipe(Vec::new()), all(&refused[..]));
    let output = Command::new(program()).stdin(Stdio::null()).output().expect("the program runs");
    assert_eq!(output.stdout, refused);
}

/// The longest text, whose report is the longest too, and a byte more.
#[test]
fn the_longest_text() {
    let mut text = blank_lines();
    for bytes in [usize::MAX, 4_096, 1_000] {
        assert_eq!(in_pieces(text.clone(), bytes, Duration::from_millis(1)), expected(&text));
    }
    text.push(b' ');
    for bytes in [usize::MAX, 4_096, LONGEST_TEXT] {
        let text = text.clone();
        let report = fed(move |mut input| {
            let _ = text.chunks(bytes).try_for_each(|piece| input.write_all(piece));
        });
        assert_eq!(report, too_long());
    }
}

/// The input goes on without end.
#[test]
fn an_endless_input() {
    let report = fed(|mut input| while input.write_all(&[b' '; 4_096]).is_ok() {});
    assert_eq!(report, too_long());
}

/// One byte too many has come; then nothing more comes, and the input is not closed.
#[test]
fn an_input_that_falls_silent() {
    let report = fed(|mut input| {
        let _ = input.write_all(&[b' '; LONGEST_TEXT + 1]);
        sleep(2 * PATIENCE);
    });
    assert_eq!(report, too_long());
}

/// What the program prints of an input of another kind; it ends without a complaint.
fn from(input: impl Into<Stdio>) -> String {
    let output = Command::new(program()).stdin(input).output().expect("the program runs");
    assert_eq!((all(&output.stderr[..]), output.status.code()), (String::new(), Some(0)));
    all(&output.stdout[..])
}

/// A connection: the end to lend to the program, and the other one.
fn connection() -> (TcpStream, TcpStream) {
    let listener = TcpListener::bind("127.0.0.1:0").expect("a port of this machine");
    let near = TcpStream::connect(listener.local_addr().expect("its address")).expect("a connection");
    let (far, _) = listener.accept().expect("its other end");
    (near, far)
}

/// What the program prints of a connection over which a text comes, and which is then closed, or breaks: it is reset where its other end is
/// closed with something unread in it.
fn over_a_connection(text: &[u8], breaks: bool) -> String {
    let (mut near, mut far) = connection();
    if breaks {
        near.write_all(b"unread").expect("the connection takes it");
    }
    let text = text.to_vec();
    let feed = spawn(move || {
        far.write_all(&text).expect("the connection takes it");
        // so that the program has read it, and waits for more
        sleep(Duration::from_millis(200));
    });
    let printed = from(OwnedFd::from(near));
    feed.join().expect("the other end");
    printed
}

/// Nothing is printed, also where what came before ends with a line and is a book.
#[test]
fn an_input_that_cannot_be_read() {
    assert_eq!(from(File::open(path("examples")).expect("a folder")), "");
    let closed = Command::new("sh").args(["-c", "exec \"$0\" <&-"]).arg(program()).output().expect("the program runs");
    assert_eq!((all(&closed.stdout[..]), all(&closed.stderr[..])), (String::new(), String::new()));
    let (near, _far) = connection();
    near.set_nonblocking(true).expect("a connection that does not wait");
    assert_eq!(from(OwnedFd::from(near)), "");
}

#[test]
fn a_connection_that_breaks() {
    let text = book("case-a");
    for lines in 0..=text.len() / 84 {
        assert_eq!(over_a_connection(&text[..84 * lines], true), "", "after {lines} lines");
    }
    assert_eq!(over_a_connection(&text[..100], true), "");
    assert_eq!(over_a_connection(&text, false), expected(&text));
    // too long before it breaks
    assert_eq!(over_a_connection(&[b' '; LONGEST_TEXT + 1], true), too_long());
}

/// The reader goes away before the report comes: the program ends, and says nothing.
#[test]
fn a_reader_who_goes_away() {
    for text in [book("case-a"), blank_lines(), vec![b' '; LONGEST_TEXT + 1]] {
        let mut child = start();
        drop(child.stdout.take());
        let _ = child.stdin.take().expect("its input").write_all(&text);
        ended(&mut child);
        assert_eq!(all(child.stderr.take().expect("its complaints")), "");
    }
}
