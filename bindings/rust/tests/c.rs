//! The C header against this crate: the same tables, the same steps through the trees of the kept sections and of made ones, their events with
//! tokens and places, what the trees' records say, the same parts of numbers, the same values, and the same lines and columns. The two walk in
//! different ways: the header without memory, this crate with a list of the Starts that were used. cc builds bindings/c/tests/print.c.
mod files;
mod made;
mod records;

use gigboda::{
    association_value, number_parts, position, property_section, property_tree, tokenize, Event, Kind, Message, Node, Position, Pushed, Refusal, Section,
    Step, Tree,
};
use records::{parts, records, Record, TREE, VALUE};
use std::fmt::Write as _;
use std::io::Write as _;
use std::path::PathBuf;
use std::process::{Command, Stdio};

/// How many texts are made.
const MADE: usize = 4_000;

/// Builds the C program under a name of its own.
fn build(name: &str) -> PathBuf {
    let c = PathBuf::from(env!("CARGO_MANIFEST_DIR")).join("../c");
    let program = PathBuf::from(env!("CARGO_TARGET_TMPDIR")).join(name);
    let built = Command::new("cc")
        .args(["-std=c99", "-O2", "-I"])
        .args([&c, &c.join("tests/print.c")])
        .arg(concat!(env!("GIGBODA_LIB_FOLDER"), "/libcapi.a"))
        .arg("-o")
        .arg(&program)
        .status();
    assert!(built.expect("cc runs").success(), "cc does not build print.c");
    program
}

/// What the C program prints.
fn c_prints(name: &str, what: &str, input: Vec<u8>) -> String {
    let mut running = Command::new(build(name)).arg(what).stdin(Stdio::piped()).stdout(Stdio::piped()).spawn().expect("it runs");
    let mut to = running.stdin.take().expect("a pipe");
    let writer = std::thread::spawn(move || to.write_all(&input));
    let output = running.wait_with_output().expect("it ends");
    writer.join().expect("a thread").expect("it reads all");
    assert!(output.status.success(), "print {what} fails");
    String::from_utf8(output.stdout).expect("UTF-8")
}

fn same_lines(ours: &str, theirs: &str) {
    for (number, (our, their)) in ours.lines().zip(theirs.lines()).enumerate() {
        assert_eq!(our, their, "line {number}, Rust's and C's");
    }
    assert_eq!(ours.lines().count(), theirs.lines().count());
}

#[test]
fn the_same_tables() {
    let mut ours = format!("version {}\n", env!("CARGO_PKG_VERSION"));
    for kind in Kind::ALL {
        writeln!(ours, "kind {} {kind}", kind.number()).expect("a string");
    }
    for refusal in Refusal::ALL {
        writeln!(ours, "refusal {} {refusal}", refusal.number()).expect("a string");
    }
    for message in Message::FIXED.into_iter().chain(Kind::ALL.iter().copied().map(Message::Missing)) {
        writeln!(ours, "message {} {message}", message.number()).expect("a string");
    }
    same_lines(&ours, &c_prints("print_tables", "tables", Vec::new()));
}

fn step_line(step: Step) -> String {
    let what = match step.node {
        Node::Enter(kind) => format!("enter {kind}"),
        Node::Token(kind) => format!("token {kind}"),
        Node::Leave => "leave".to_string(),
        Node::Error(message) => format!("error {message}"),
    };
    format!("{} {} {} {} {what}\n", step.depth, step.token, step.place, step.end)
}

fn section_lines(section: &Section) -> String {
    let clean = if section.is_clean() { "clean" } else { "not clean" };
    let Position { line, column } = section.position(section.text.len());
    let (tokens, taken, events) = (section.token_words.len(), section.taken, section.events().count());
    let first = format!("0 0 {tokens} {taken} {events}, 1:1 of {line}:{column}, {clean}\n");
    section.nodes().fold(first, |lines, step| lines + &step_line(step))
}

/// What the C program prints for a record's walk.
fn walk_lines(record: &Record) -> String {
    let (mut tokens, mut events) = (vec![0; record.tokens as usize], vec![0; record.events as usize]);
    match property_section(record.text, &mut tokens, &mut events) {
        Ok(section) => section_lines(&section),
        Err(refused) => {
            let (at, end) = (refused.position(record.text), position(record.text, record.text.len()));
            let places = format!("{}:{} of {}:{}", at.line, at.column, end.line, end.column);
            format!("{} {} 0 0 0, {places}, {}\n", refused.refusal.number(), refused.place, refused.refusal)
        }
    }
}

/// Class, kind and last of an event's first word, made from what it is.
fn event_fields(event: Event) -> (u32, u32, u32) {
    match event {
        Event::Start { kind, forward_parent } => (0, kind.number(), forward_parent.unwrap_or(0).into()),
        Event::Token { kind } => (1, kind.number(), 1),
        Event::Finish => (2, 0, 0),
        Event::Error { message } => (3, 0, message.number().into()),
    }
}

/// What the C program prints for a record's events.
fn event_lines(record: &Record) -> String {
    let (mut tokens, mut events) = (vec![0; record.tokens as usize], vec![0; record.events as usize]);
    let section = match property_section(record.text, &mut tokens, &mut events) {
        Ok(section) => section,
        Err(refused) => return format!("{} {} 0\n", refused.refusal.number(), refused.place),
    };
    let line = |Pushed { event, token }| {
        let ((class, kind, last), at) = (event_fields(event), section.token_position(token));
        format!("{class} {kind} {last} {token} {} {}:{}\n", section.token_place(token), at.line, at.column)
    };
    section.events().fold(format!("0 0 {}\n", section.events().count()), |lines, pushed| lines + &line(pushed))
}

fn node_line(tree: &Tree, node: usize) -> String {
    let (record, range) = (tree.node(node), tree.range(node));
    let innermost = tree.innermost(tree.token_at(range.start)).unwrap_or(tree.len());
    let numbers = format!("{} {} {} {} at {} {}", record.kind, record.parent, record.first, record.below, range.start, range.end);
    let children: String = tree.children(node).map(|child| format!(" {child}")).collect();
    format!("{numbers} in {innermost}:{children}\n")
}

/// What the C program prints for a record's tree.
fn tree_lines(record: &Record) -> String {
    let lent = if record.call == TREE { record.own } else { record.events / 4 };
    let (mut tokens, mut events) = (vec![0; record.tokens as usize], vec![0; record.events as usize]);
    let mut records = vec![0; lent as usize];
    match property_tree(record.text, &mut tokens, &mut events, &mut records) {
        Ok(tree) => {
            let Section { token_words, taken, .. } = tree.section;
            let first = format!("0 0 {} {taken} {} {}\n", token_words.len(), tree.section.events().count(), tree.len());
            (0..tree.len()).fold(first, |lines, node| lines + &node_line(&tree, node))
        }
        Err(refused) => format!("{} {} 0 0 0 0\n", refused.refusal.number(), refused.place),
    }
}

/// What the C program prints for the numbers in a record's text.
fn number_lines(record: &Record) -> String {
    let mut words = vec![0; record.text.len()];
    let filled = tokenize(record.text, &mut words).unwrap_or_default();
    let line = |token| {
        let numbers = parts(number_parts(record.text, filled, token)?).map(|n| n.to_string());
        Some(format!("{token}: {}\n", numbers.join(" ")))
    };
    (0..filled.len()).filter_map(line).collect()
}

/// What the C program prints for the value of a record's association.
fn value_line(record: &Record) -> String {
    let number = if record.call == VALUE { record.own as usize } else { 0 };
    let (mut tokens, mut events) = (vec![0; record.tokens as usize], vec![0; record.events as usize]);
    match association_value(record.text, &mut tokens, &mut events, number) {
        Ok(value) => {
            let section = property_section(record.text, &mut tokens, &mut events).expect("not refused");
            format!("0 0 {} {} {} {value}\n", section.token_words.len(), section.taken, section.events().count())
        }
        Err(refused) => format!("{} {} 0 0 0 0\n", refused.refusal.number(), refused.place),
    }
}

/// A record of the section call.
fn record_of(text: &[u8]) -> Vec<u8> {
    let numbers = [text.len() as u32, 2_000, 4_000];
    numbers.iter().flat_map(|number| number.to_le_bytes()).chain(text.iter().copied()).collect()
}

/// Holds what the C program prints for the kept sections and for made ones against the lines for each.
fn the_same_for_sections(name: &str, what: &str, lines: fn(&Record) -> String) {
    let made = made::texts(MADE).into_iter().flat_map(|text| record_of(text.as_bytes()));
    let input: Vec<u8> = files::bytes("crates/replay/stdin").into_iter().chain(made).collect();
    let all = records(&input);
    let sections: Vec<&Record> = all.iter().filter(|record| record.is_section()).collect();
    let ours: String = sections.iter().map(|record| lines(record)).collect();
    same_lines(&ours, &c_prints(name, what, input.clone()));
    assert!(sections.len() >= 1_500 + MADE, "only {} sections", sections.len());
    println!("{} sections, {what}: the same {} lines", sections.len(), ours.lines().count());
}

#[test]
fn the_same_walks() {
    the_same_for_sections("print_walks", "walks", walk_lines);
}

#[test]
fn the_same_events() {
    the_same_for_sections("print_events", "events", event_lines);
}

#[test]
fn the_same_trees() {
    the_same_for_sections("print_trees", "trees", tree_lines);
}

#[test]
fn the_same_numbers() {
    the_same_for_sections("print_numbers", "numbers", number_lines);
}

#[test]
fn the_same_values() {
    the_same_for_sections("print_values", "values", value_line);
}

/// Line and column of every place: of the sample whose listing is kept (columns.rs), of made texts, and of bytes that are no UTF-8.
#[test]
fn the_same_places() {
    let mut texts: Vec<Vec<u8>> = made::texts(300).into_iter().map(String::into_bytes).collect();
    texts.push(files::bytes("samples/characters.aadl"));
    texts.push((0..=255).chain([b'\n']).chain((0..=255).rev()).collect());
    let line = |at: Position| format!("{}:{}\n", at.line, at.column);
    let lines = |text: &Vec<u8>| (0..=text.len()).map(|place| line(position(text, place))).collect::<String>();
    let ours: String = texts.iter().map(lines).collect();
    same_lines(&ours, &c_prints("print_places", "places", texts.iter().flat_map(|text| record_of(text)).collect()));
    println!("{} places at the same lines and columns", ours.lines().count());
}
