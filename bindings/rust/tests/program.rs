//! The program `tree`: what it prints for the gateway's section, for texts with slips and for one that is refused, kept in program.stdout; the
//! same lines from the steps through the events, for made texts; and what it tells where it cannot read or write.
mod files;
mod made;

use gigboda::{property_section, Node, Section};
use std::fs::File;
use std::io::Write;
use std::process::{Command, Output, Stdio};

/// How many texts are made.
const MADE: usize = 150;

/// What the program prints for an argument or none and an input.
fn run(file: Option<&str>, input: &[u8]) -> Output {
    let command =
        Command::new(env!("CARGO_BIN_EXE_tree")).args(file).stdin(Stdio::piped()).stdout(Stdio::piped()).stderr(Stdio::piped()).spawn();
    let mut running = command.expect("it runs");
    running.stdin.take().expect("a pipe").write_all(input).expect("it reads all");
    running.wait_with_output().expect("it ends")
}

/// What it prints, and then its status if it is not 0.
fn printed(output: Output) -> String {
    assert_eq!(String::from_utf8_lossy(&output.stderr), "");
    let status = output.status.code().filter(|code| *code != 0).map_or(String::new(), |code| format!("status {code}\n"));
    String::from_utf8(output.stdout).expect("UTF-8") + &status
}

#[test]
fn prints_what_is_kept() {
    let sample = concat!(env!("CARGO_MANIFEST_DIR"), "/../../samples/gateway.aadl");
    let texts: [&[u8]; 4] = [
        b"properties\n  Period => 20 ms\n  Deadline => 1 + 2 * 3 .. 0x1F;\n  Queue_Size applies",
        "properties A => (\"\u{fc}\n\", );\tB\u{e4}".as_bytes(),
        b"properties none; }",
        b"properties\n  A => \"\xfc\";",
    ];
    let each = [run(Some(sample), b"")].into_iter().chain(texts.map(|text| run(None, text)));
    let ours: String = each.map(printed).collect();
    let kept = String::from_utf8(files::bytes("bindings/rust/tests/program.stdout")).expect("UTF-8");
    assert_eq!(ours.lines().collect::<Vec<_>>(), kept.lines().collect::<Vec<_>>());
}

/// The program's lines from the steps through the events.
fn lines(section: &Section) -> String {
    let mut out = String::new();
    let mut line = |depth: usize, what: String, place: usize| {
        let at = section.position(place);
        out += &format!("{}{what} {}:{}\n", "  ".repeat(depth), at.line, at.column);
    };
    for step in section.nodes() {
        match step.node {
            Node::Enter(kind) => line(step.depth, kind.to_string(), step.place),
            Node::Token(kind) => {
                let text = std::str::from_utf8(&section.text[step.place..step.end]).expect("UTF-8");
                line(step.depth, format!("{kind} {text:?}"), step.place)
            }
            Node::Error(message) => line(step.depth, format!("! {message}"), step.place),
            Node::Leave => {}
        }
    }
    let left: Vec<_> = section.tokens().filter(|token| !token.kind.is_trivia()).skip(section.taken).collect();
    match left.as_slice() {
        [] => {}
        [one] => line(0, "not read: 1 token at".to_string(), one.range.start),
        more => line(0, format!("not read: {} tokens from", more.len()), more[0].range.start),
    }
    out
}

#[test]
fn prints_what_the_steps_meet() {
    let long = format!("properties a=>1{};", "*".repeat(800));
    let mut count = 0;
    for text in made::texts(MADE).into_iter().chain([long]) {
        let (mut tokens, mut events) = (vec![0; text.len()], vec![0; 16 * text.len()]);
        let section = property_section(text.as_bytes(), &mut tokens, &mut events).expect("not refused");
        let wanted = lines(&section);
        assert_eq!(printed(run(None, text.as_bytes())), wanted, "{text:?}");
        count += wanted.lines().count();
    }
    println!("{count} lines printed as the steps meet them");
}

/// What it tells and its status, without a line on standard output.
fn told(output: Output) -> (String, Option<i32>) {
    assert_eq!(String::from_utf8_lossy(&output.stdout), "");
    (String::from_utf8_lossy(&output.stderr).into_owned(), output.status.code())
}

#[test]
fn tells_what_fails() {
    let (line, status) = told(run(Some("/no/such/file"), b""));
    assert!(line.starts_with("/no/such/file: ") && status == Some(2), "{line}");
    let (line, status) = told(run(Some("--help"), b""));
    assert!(line.starts_with("usage: tree [FILE]") && status == Some(2), "{line}");
    assert_eq!(run(Some("-"), b"properties").stdout, b"PROPERTY_SECTION 1:1\n  PROPERTIES_KW \"properties\" 1:1\n");
    let full = File::options().write(true).open("/dev/full").expect("it opens");
    let output = Command::new(env!("CARGO_BIN_EXE_tree")).stdin(Stdio::null()).stdout(full).output().expect("it runs");
    let (line, status) = told(output);
    assert!(line.starts_with("standard output: ") && status == Some(2), "{line}");
}
