//! The safe functions of bindings/rust, the tree, its records and values against the given Rust, on texts of all families (tools/bindings-test
//! runs it).
use gigboda::{
    association_value, number_parts, property_section, property_tree, tokenize, Event, Kind, Message, Node, Number, Refusal, Refused, Section,
    EVENT_WORDS, MOST_EVENTS,
};
use oracle::pushes;
use oracle::tree::leaves;
use oracle::values::value;
use spar::event::Event as Theirs;
use spar::syntax_kind::SyntaxKind;
use texts::families::{self, Family, Maker};
use texts::random::Rng;
use texts::strings;

/// Texts of each family that makes them at random, and of each that gives every one of its texts.
const OF_EACH: usize = 3_000;

/// A tree: a node's kind and what it holds, a token's kind and text, or a message.
#[derive(Debug, PartialEq)]
enum Tree {
    Node(u16, Vec<Tree>),
    Token(u16, String),
    Error(String),
}

/// Puts trees together as their parts come, the innermost open node last.
struct Builder(Vec<(u16, Vec<Tree>)>);

impl Builder {
    fn new() -> Builder {
        Builder(vec![(0, Vec::new())])
    }

    fn enter(&mut self, kind: u16) {
        self.0.push((kind, Vec::new()));
    }

    fn add(&mut self, tree: Tree) {
        self.0.last_mut().expect("one is open").1.push(tree);
    }

    fn leave(&mut self) {
        let (kind, inside) = self.0.pop().expect("one is open");
        self.add(Tree::Node(kind, inside));
    }

    fn done(mut self) -> Vec<Tree> {
        assert_eq!(self.0.len(), 1, "a node that does not end");
        self.0.pop().expect("the whole").1
    }
}

/// A message in the Rust's words.
fn in_their_words(message: Message) -> String {
    let fixed = match message {
        Message::NoArrow => "expected `=>` or `+=>`",
        Message::NoNameInSet => "expected property name after `::`",
        Message::NoName => "expected property name",
        Message::CStyle => "C-style radix literal is not valid AADL; use based notation, e.g. `16#…#` for hexadecimal",
        Message::NoExpression => "expected property expression",
        Message::NoIdentifier => "expected identifier after `::`",
        Message::NoImplementation => "expected implementation name after `.`",
        Message::VirtualAlone => "expected `bus` or `processor` after `virtual`",
        Message::Missing(kind) => return format!("expected {kind}"),
    };
    fixed.to_string()
}

fn our_tree(section: &Section, text: &str) -> Vec<Tree> {
    let mut tree = Builder::new();
    for step in section.nodes() {
        match step.node {
            Node::Enter(kind) => tree.enter(kind as u16),
            Node::Token(kind) => tree.add(Tree::Token(kind as u16, text[step.place..step.end].to_string())),
            Node::Leave => tree.leave(),
            Node::Error(message) => tree.add(Tree::Error(in_their_words(message))),
        }
    }
    tree.done()
}

/// The kinds of a Start and of the Starts that its chain points to, innermost first. Each is taken out of the list.
fn chain(events: &mut [Theirs], start: usize) -> Vec<SyntaxKind> {
    let mut kinds = Vec::new();
    let mut at = start;
    loop {
        match std::mem::replace(&mut events[at], Theirs::Tombstone) {
            Theirs::Start { kind, forward_parent } => {
                kinds.push(kind);
                match forward_parent {
                    Some(distance) => at += distance as usize,
                    None => return kinds,
                }
            }
            other => panic!("a forward parent that is {other:?}"),
        }
    }
}

/// The tree of the Rust's events, by the rule of parsers of its sort.
fn their_tree(mut events: Vec<Theirs>, mut texts: impl Iterator<Item = String>) -> Vec<Tree> {
    let mut tree = Builder::new();
    for at in 0..events.len() {
        match events[at].clone() {
            Theirs::Start { .. } => chain(&mut events, at).iter().rev().for_each(|kind| tree.enter(*kind as u16)),
            Theirs::Token { kind, .. } => tree.add(Tree::Token(kind as u16, texts.next().expect("a token"))),
            Theirs::Finish => tree.leave(),
            Theirs::Error { msg } => tree.add(Tree::Error(msg)),
            Theirs::Tombstone => {}
        }
    }
    tree.done()
}

/// A record for each node of a tree, in the order in which they open: kind, parent, first token, tokens below.
fn add_records(tree: &Tree, parent: usize, taken: &mut usize, records: &mut Vec<[usize; 4]>) {
    match tree {
        Tree::Node(kind, inside) => {
            let (node, first) = (records.len(), *taken);
            records.push([usize::from(*kind), parent, first, 0]);
            inside.iter().for_each(|tree| add_records(tree, node, taken, records));
            records[node][3] = *taken - first;
        }
        Tree::Token(..) => *taken += 1,
        Tree::Error(_) => {}
    }
}

/// Compares the records of a section with those of the Rust's tree; with one fewer it is refused where the last node's token starts.
fn same_records(section: &Section, theirs: &[Tree], starts: &[usize]) {
    let mut records = Vec::new();
    theirs.iter().for_each(|tree| add_records(tree, 0, &mut 0, &mut records));
    let words: Vec<u32> = records.iter().flatten().map(|number| *number as u32).collect();
    let (mut tokens, mut events) = (vec![7; section.token_words.len()], vec![7; section.event_words.len()]);
    let mut lent = vec![7; words.len()];
    let tree = property_tree(section.text, &mut tokens, &mut events, &mut lent).expect("not refused");
    let ours = (tree.section.token_words, tree.section.event_words, tree.section.taken, tree.record_words);
    assert_eq!(ours, (section.token_words, section.event_words, section.taken, words.as_slice()));
    let fewer = words.len() - 1;
    let refused = property_tree(section.text, &mut tokens, &mut events, &mut lent[..fewer]).map(|tree| tree.len());
    let first = records.last().expect("a root")[2];
    let place = starts.get(first).copied().unwrap_or(section.text.len());
    assert_eq!(refused, Err(Refused { refusal: Refusal::NoRecord, place }));
    assert!(tokens.iter().chain(&events).chain(&lent[..fewer]).all(|word| *word == 0));
}

fn same_event(ours: Event, theirs: &Theirs) -> bool {
    match (ours, theirs) {
        (Event::Start { kind, forward_parent }, Theirs::Start { kind: k, forward_parent: f }) => {
            kind as u16 == *k as u16 && forward_parent.map(u32::from) == *f
        }
        (Event::Token { kind }, Theirs::Token { kind: k, n_raw_tokens }) => kind as u16 == *k as u16 && *n_raw_tokens == 1,
        (Event::Finish, Theirs::Finish) => true,
        (Event::Error { message }, Theirs::Error { msg }) => in_their_words(message) == *msg,
        _ => false,
    }
}

/// The refusal of a text whose last token is a string that is not closed: what the Rust reads there is no longer read.
fn unclosed(text: &str, tokens: &[(SyntaxKind, usize)]) -> Option<Refused> {
    let place = strings::unclosed(text, tokens, SyntaxKind::STRING_LIT)?;
    Some(Refused { refusal: Refusal::UnclosedString, place })
}

/// The parts of a number by its token's kind and text, if it is one: the first `#` parts base and inner digits, the second these and an exponent;
/// without `#` an exponent begins with the first `e`.
fn split(kind: Kind, text: &str) -> Option<Number> {
    let is_c_style = kind == Kind::ERROR && text.starts_with('0');
    let (base, inner, closed, exponent) = match text.split_once('#') {
        _ if is_c_style => (0, 0..0, false, false),
        Some((base, behind)) => {
            let (inner, exponent) = behind.split_once('#').unwrap_or((behind, ""));
            let begin = base.len() + 1;
            (base.len(), begin..begin + inner.len(), inner.len() < behind.len(), !exponent.is_empty())
        }
        None => {
            let end = text.find(['e', 'E']).unwrap_or(text.len());
            (0, 0..end, false, end < text.len())
        }
    };
    let is_number = is_c_style || matches!(kind, Kind::INTEGER_LIT | Kind::REAL_LIT);
    is_number.then_some(Number { kind, len: text.len(), base: 0..base, inner, closed, exponent })
}

/// Compares what is told of each token as a number with what the Rust's token says; how many are numbers.
fn same_numbers(text: &str, words: &[u32], theirs: &[(SyntaxKind, usize)]) -> usize {
    let (mut at, mut count) = (0, 0);
    for (token, (kind, len)) in theirs.iter().enumerate() {
        let wanted = split(Kind::of(*kind as u32).expect("a kind"), &text[at..at + len]);
        count += usize::from(wanted.is_some());
        assert_eq!(number_parts(text.as_bytes(), words, token), wanted, "token {token} of {text:?}");
        at += len;
    }
    count
}

/// Compares the tokens of a text, and the parts of its numbers, with the Rust's; how many numbers there are. None for a text that is refused.
fn same_tokens(text: &str) -> Option<usize> {
    let mut words = vec![7; text.len()];
    let theirs = spar::lexer::tokenize(text);
    if let Some(refused) = unclosed(text, &theirs) {
        assert_eq!(tokenize(text.as_bytes(), &mut words), Err(refused), "{text:?}");
        assert!(words.iter().all(|word| *word == 0), "{text:?}");
        return None;
    }
    let ours = tokenize(text.as_bytes(), &mut words).expect("not refused");
    let their_words: Vec<u32> = theirs.iter().map(|(kind, len)| *kind as u32 * 65_536 + *len as u32).collect();
    assert_eq!(ours, their_words, "{text:?}");
    Some(same_numbers(text, ours, &theirs))
}

/// Compares the events and their tokens, the tree and its records with the Rust's. False for a text that is refused where the Rust has no limit.
fn same_section(text: &str) -> bool {
    let (mut tokens, mut events) = (vec![0; text.len()], vec![0; EVENT_WORDS * MOST_EVENTS]);
    let all = spar::lexer::tokenize(text);
    let section = match property_section(text.as_bytes(), &mut tokens, &mut events) {
        Ok(section) => section,
        Err(r) => {
            let limit = matches!(r.refusal, Refusal::NoProperties | Refusal::NoEventWord | Refusal::TooDeep);
            assert!(unclosed(text, &all).map_or(limit, |refused| r == refused), "{r:?} {text:?}");
            return false;
        }
    };
    assert_eq!(unclosed(text, &all), None, "{text:?}");
    let (theirs, tokens) = pushes::events(text, &all);
    assert_eq!(section.events().count(), theirs.len(), "{text:?}");
    assert!(section.events().zip(&theirs).all(|(o, t)| same_event(o.event, t)), "{text:?}");
    assert!(section.events().map(|pushed| pushed.token).eq(tokens), "{text:?}");
    let leaves = leaves(&all);
    let theirs = their_tree(theirs, leaves.iter().map(|range| text[range.clone()].to_string()));
    assert_eq!(our_tree(&section, text), theirs, "{text:?}");
    let starts: Vec<usize> = leaves.iter().map(|range| range.start).collect();
    same_records(&section, &theirs, &starts);
    true
}

/// Compares the value of each association of a text, and of the first behind them, with what the oracle computes from the Rust's events; how many are
/// numbers. A value leaves the section call's words, and a refusal leaves zeros. None for a text that the section call refuses.
fn same_values(text: &str) -> Option<usize> {
    let (mut tokens, mut events) = (vec![7; text.len()], vec![7; EVENT_WORDS * MOST_EVENTS]);
    let section = property_section(text.as_bytes(), &mut tokens, &mut events).ok()?;
    let words = [section.token_words, section.event_words].concat();
    let all = spar::lexer::tokenize(text);
    let ((theirs, _), leaves) = (pushes::events(text, &all), leaves(&all));
    let mut computed = 0;
    for number in 0..=associations(&section) {
        let (mut tokens, mut events) = (vec![7; section.token_words.len()], vec![7; section.event_words.len()]);
        let ours = association_value(text.as_bytes(), &mut tokens, &mut events, number);
        let wanted = value(text, &theirs, &leaves, number);
        assert_eq!(ours.map_err(|r| (r.refusal.number() as u32, r.place)), wanted, "association {number} of {text:?}");
        let left = if wanted.is_ok() { &words } else { &vec![0; words.len()] };
        assert!([tokens, events].concat() == *left, "association {number} of {text:?}");
        computed += usize::from(wanted.is_ok());
    }
    Some(computed)
}

fn associations(section: &Section) -> usize {
    section.nodes().filter(|step| step.node == Node::Enter(Kind::PROPERTY_ASSOCIATION)).count()
}

/// Texts of all families in turn, those that are UTF-8 and not too long.
fn texts_of(mut families: Vec<Family>, seed: u64) -> Vec<String> {
    let mut rng = Rng::new(seed);
    let mut all = Vec::new();
    for family in &mut families {
        for _ in 0..OF_EACH {
            let text = match &mut family.maker {
                Maker::Every(every) => every.next(),
                Maker::Random(_, make) => Some(make(&mut rng)),
            };
            all.extend(text.and_then(|t| String::from_utf8(t).ok()).filter(|t| t.len() <= gigboda::MOST_BYTES));
        }
    }
    all
}

/// The Rust's recursion has no bound, so it gets a large stack.
fn with_stack(run: impl FnOnce() + Send + 'static) {
    std::thread::Builder::new().stack_size(1 << 30).spawn(run).expect("a thread").join().expect("no difference");
}

#[test]
fn kinds_are_the_rusts() {
    let count = SyntaxKind::__LAST as u16;
    for number in 0..count {
        // Its numbers go from 0 to that last one without a gap.
        let theirs: SyntaxKind = unsafe { std::mem::transmute(number) };
        assert_eq!(Kind::of(number.into()).map(Kind::name), Some(format!("{theirs:?}").as_str()), "kind {number}");
    }
    assert_eq!(Kind::ALL.len(), usize::from(count));
    println!("{count} kinds with the same names and numbers");
}

#[test]
fn tokens_are_the_rusts() {
    let texts = texts_of(families::tokens(), 7);
    let of_each: Vec<usize> = texts.iter().filter_map(|text| same_tokens(text)).collect();
    let (read, numbers) = (of_each.len(), of_each.iter().sum::<usize>());
    assert!(read > 20_000 && texts.len() - read > 1_000, "only {read} of {} texts were read, or nearly all", texts.len());
    assert!(numbers > 10_000, "only {numbers} numbers");
    println!("{read} of {} texts cut into the same tokens, the others refused for a string that is not closed", texts.len());
    println!("{numbers} numbers in them with the same parts");
}

#[test]
fn events_and_trees_are_the_rusts() {
    with_stack(|| {
        let texts = texts_of(families::sections(), 8);
        let read = texts.iter().filter(|text| same_section(text)).count();
        assert!(read > 20_000, "only {read} of {} texts were read", texts.len());
        println!("{read} of {} texts read to the same events, with their tokens, trees and records, the others refused", texts.len());
    });
}

#[test]
fn values_are_what_the_rusts_trees_say() {
    with_stack(|| {
        let texts = texts_of(families::values(), 9);
        let of_each: Vec<usize> = texts.iter().filter_map(|text| same_values(text)).collect();
        let (read, numbers) = (of_each.len(), of_each.iter().sum::<usize>());
        assert!(read > 20_000 && numbers > 1_000, "only {read} of {} texts were read, with {numbers} values", texts.len());
        println!("{numbers} values, and 9 or 10 for all other associations, as the Rust's trees say, in {read} of {} texts", texts.len());
    });
}
