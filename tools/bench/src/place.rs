//! What is measured with the code at one place, and its form between two programs: a line with the places, then one for each text; behind an empty line
//! one for each text of the value call.
use crate::families::Text;
use crate::measure::{quartiles, Job, Quartiles};
use gigboda::{association_value, property_section, property_tree, tokenize, Kind, Node, Tree, EVENT_WORDS};
use spar::parser::Parser;
use std::hint::black_box;
use std::str::FromStr;

/// As many tokens, and as many events, as a text can have.
pub const MOST: usize = 32_768;

/// Code is fetched by lines of so many bytes.
pub const LINE: usize = 64;

/// How many jobs a text has: our tokens, the Rust's, our section, the Rust's, our tree, and a pass that only checks UTF-8.
const JOBS: usize = 6;

/// How many jobs a text of the value call has: our section, the value of its first association, and that of its last.
const VALUE_JOBS: usize = 3;

/// Their times, in nanoseconds per byte of a text.
pub type Times = [Quartiles; JOBS];
pub type ValueTimes = [Quartiles; VALUE_JOBS];

/// What one program measures: where in their lines our call and the Rust's stand, and the times of each text, and of each of the value call.
pub struct Measured {
    pub ours: usize,
    pub rust: usize,
    pub times: Vec<Times>,
    pub values: Vec<ValueTimes>,
}

/// The words that are lent to one of our calls, made once for each text.
struct Lent {
    tokens: Vec<u32>,
    events: Vec<u32>,
    records: Vec<u32>,
}

impl Lent {
    fn new() -> Lent {
        Lent { tokens: vec![0; MOST], events: vec![0; EVENT_WORDS * MOST], records: vec![0; Tree::RECORD * MOST] }
    }
}

/// How many tokens a text has.
fn our_tokens(text: &str, lent: &mut [u32]) -> usize {
    tokenize(text.as_bytes(), lent).expect("not refused").len()
}

/// How many tokens and events a section has.
fn our_section(text: &str, lent: &mut Lent) -> (usize, usize) {
    let section = property_section(text.as_bytes(), &mut lent.tokens, &mut lent.events).expect("not refused");
    (section.token_words.len(), section.event_words.len() / EVENT_WORDS)
}

/// How many tokens, events and nodes a section has.
fn our_tree(text: &str, lent: &mut Lent) -> (usize, usize, usize) {
    let tree = property_tree(text.as_bytes(), &mut lent.tokens, &mut lent.events, &mut lent.records).expect("not refused");
    (tree.section.token_words.len(), tree.section.event_words.len() / EVENT_WORDS, tree.len())
}

fn our_value(text: &str, lent: &mut Lent, number: usize) -> i64 {
    association_value(text.as_bytes(), &mut lent.tokens, &mut lent.events, number).expect("not refused")
}

fn rust_section(text: &str) -> (usize, usize) {
    let tokens = spar::lexer::tokenize(text);
    let mut parser = Parser::new(&tokens, text);
    parser.run_property_section();
    let events = black_box(parser.finish());
    (tokens.len(), events.len())
}

/// The two read the same: no refusal, as many tokens and as many events; the tree has the nodes that the events spell; and it is clean where
/// it is to be.
fn check(text: &Text, lent: &mut Lent) {
    let name = format!("{} {}", text.family, text.bytes);
    let counts = our_section(&text.text, lent);
    assert_eq!(counts, rust_section(&text.text), "{name}: counts differ");
    assert_eq!(our_tokens(&text.text, &mut lent.tokens), counts.0, "{name}: the two calls differ");
    let (tokens, events, nodes) = our_tree(&text.text, lent);
    let section = property_section(text.text.as_bytes(), &mut lent.tokens, &mut lent.events).expect("not refused");
    let entered = section.nodes().filter(|step| matches!(step.node, Node::Enter(_))).count();
    assert_eq!((tokens, events, nodes), (counts.0, counts.1, entered), "{name}: the tree differs");
    assert_eq!(section.is_clean(), text.clean, "{name}: clean");
}

/// The jobs of a text.
fn jobs<'a>(text: &'a Text, [only, section, tree]: &'a mut [Lent; 3]) -> [Job<'a>; JOBS] {
    let source = text.text.as_str();
    [
        Job::new(move || our_tokens(black_box(source), &mut only.tokens)),
        Job::new(move || spar::lexer::tokenize(black_box(source))),
        Job::new(move || our_section(black_box(source), section)),
        Job::new(move || rust_section(black_box(source))),
        Job::new(move || our_tree(black_box(source), tree)),
        Job::new(move || std::str::from_utf8(black_box(source.as_bytes())).is_ok()),
    ]
}

/// The jobs of a text of the value call.
fn value_jobs<'a>(text: &'a Text, [section, first, last]: &'a mut [Lent; 3]) -> [Job<'a>; VALUE_JOBS] {
    let source = text.text.as_str();
    let read = property_section(source.as_bytes(), &mut section.tokens, &mut section.events).expect("not refused");
    let associations = read.nodes().filter(|step| step.node == Node::Enter(Kind::PROPERTY_ASSOCIATION)).count();
    [
        Job::new(move || our_section(black_box(source), section)),
        Job::new(move || our_value(black_box(source), first, 0)),
        Job::new(move || our_value(black_box(source), last, associations - 1)),
    ]
}

/// The times of all texts by their jobs, measured in the same rounds.
fn times<const N: usize>(texts: &[Text], jobs: for<'a> fn(&'a Text, &'a mut [Lent; 3]) -> [Job<'a>; N]) -> Vec<[Quartiles; N]> {
    let mut lent: Vec<_> = texts.iter().map(|_| std::array::from_fn(|_| Lent::new())).collect();
    texts.iter().zip(&mut lent).for_each(|(text, lent)| check(text, &mut lent[0]));
    let mut all: Vec<Job> = texts.iter().zip(&mut lent).flat_map(|(text, lent)| jobs(text, lent)).collect();
    let found = quartiles(&mut all);
    let each = texts.iter().zip(found.chunks(N));
    each.map(|(t, of_text)| {
        let bytes = t.text.len() as f64;
        std::array::from_fn(|job| Quartiles { lower: of_text[job].lower / bytes, upper: of_text[job].upper / bytes })
    })
    .collect()
}

/// Where in a line of code the library's tokens-only call and the Rust's `tokenize` stand.
fn places() -> [usize; 2] {
    extern "C" {
        fn gigboda_tokenize();
    }
    [gigboda_tokenize as *const (), spar::lexer::tokenize as *const ()].map(|call| call as usize % LINE)
}

/// Measures all texts and prints what `parse` reads.
pub fn print_measured(texts: &[Text], values: &[Text]) {
    let [ours, rust] = places();
    println!("{ours} {rust}");
    times(texts, jobs).iter().for_each(|of_text| print_times(of_text));
    println!();
    times(values, value_jobs).iter().for_each(|of_text| print_times(of_text));
}

fn print_times(of_text: &[Quartiles]) {
    let numbers: Vec<String> = of_text.iter().flat_map(|q| [q.lower, q.upper]).map(|n| n.to_string()).collect();
    println!("{}", numbers.join(" "));
}

fn numbers<T: FromStr>(line: &str) -> Option<Vec<T>> {
    line.split(' ').map(|n| n.parse().ok()).collect()
}

/// The times in a line.
fn quartiles_in<const N: usize>(line: &str) -> Option<[Quartiles; N]> {
    let quartiles: Vec<Quartiles> = numbers(line)?.chunks_exact(2).map(|q| Quartiles { lower: q[0], upper: q[1] }).collect();
    quartiles.try_into().ok()
}

pub fn parse(printed: &str) -> Option<Measured> {
    let (texts, values) = printed.split_once("\n\n")?;
    let mut lines = texts.lines();
    let [ours, rust] = numbers(lines.next()?)?.try_into().ok()?;
    let times = lines.map(quartiles_in).collect::<Option<_>>()?;
    Some(Measured { ours, rust, times, values: values.lines().map(quartiles_in).collect::<Option<_>>()? })
}
