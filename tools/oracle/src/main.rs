//! The oracle: for each record of standard input the lines that 01 asks for, from the given Rust. The Rust has no limits, no refusals,
//! no tokens of events, no tree call, no parts of numbers and no values; this program puts them around it. tools/README.md says what a record is and what is written for one.
mod records;

use oracle::parts::parts;
use oracle::pushes;
use oracle::tree::{leaves, nodes, steps, Node};
use oracle::values::value;
use records::{next, write_record, write_words, Call, Next, Reading, Record, Refusal, EVENT, RECORD};
use spar::event::Event;
use spar::lexer::tokenize;
use spar::syntax_kind::SyntaxKind;
use std::collections::HashMap;
use std::io::{self, BufReader, BufWriter, Write};
use std::ops::Range;
use texts::strings::unclosed;

/// 01's limits.
const MOST_BYTES: usize = 32_768;
const MOST_EVENTS: usize = 32_768;
const MOST_OPENERS: usize = 64;

type Token = (SyntaxKind, usize);

/// Error texts of the Rust and 01's message numbers.
struct Messages(HashMap<String, u32>);

impl Messages {
    fn new() -> Messages {
        let fixed = [
            (1, "expected `=>` or `+=>`"),
            (2, "expected property name after `::`"),
            (3, "expected property name"),
            (4, "C-style radix literal is not valid AADL; use based notation, e.g. `16#…#` for hexadecimal"),
            (5, "expected property expression"),
            (6, "expected identifier after `::`"),
            (7, "expected implementation name after `.`"),
            (8, "expected `bus` or `processor` after `virtual`"),
        ];
        let mut all: HashMap<String, u32> = fixed.iter().map(|(n, m)| (m.to_string(), *n)).collect();
        for number in 0..SyntaxKind::__LAST as u16 {
            // The kinds are numbered from 0 without a gap, in 16 bits.
            let kind: SyntaxKind = unsafe { std::mem::transmute(number) };
            all.insert(format!("expected {:?}", kind), 256 + u32::from(number));
        }
        Messages(all)
    }

    fn number(&self, text: &str) -> u32 {
        *self.0.get(text).unwrap_or_else(|| panic!("a message that 01 does not number: {}", text))
    }
}

/// An event's first word.
fn event_word(event: &Event, messages: &Messages) -> u32 {
    let word = |class: u32, kind: u32, last: u32| class * 16_777_216 + kind * 65_536 + last;
    match event {
        Event::Start { kind, forward_parent } => word(0, *kind as u32, forward_parent.unwrap_or(0)),
        Event::Token { kind, n_raw_tokens } => word(1, *kind as u32, u32::from(*n_raw_tokens)),
        Event::Finish => word(2, 0, 0),
        Event::Error { msg } => word(3, 0, messages.number(msg)),
        Event::Tombstone => word(4, 0, 0),
    }
}

/// Whether the Start at an index is an opener's: `not` or a sign before an operand, `(` of a list or of bindings, `[` of a record.
/// Its own token is the very next event.
fn is_opener(events: &[Event], at: usize) -> bool {
    let Event::Start { kind, .. } = &events[at] else { return false };
    let first = match events.get(at + 1) {
        Some(Event::Token { kind, .. }) => *kind,
        _ => return false,
    };
    match kind {
        SyntaxKind::BOOLEAN_VALUE => first == SyntaxKind::NOT_KW,
        SyntaxKind::PROPERTY_EXPRESSION => matches!(first, SyntaxKind::PLUS | SyntaxKind::MINUS),
        SyntaxKind::LIST_VALUE | SyntaxKind::PROTOTYPE_BINDING_LIST => first == SyntaxKind::L_PAREN,
        SyntaxKind::RECORD_VALUE => first == SyntaxKind::L_BRACKET,
        _ => false,
    }
}

/// Refusals 5 and 6 by reading order, for so many lent event words. Starts and Finishes nest in the order in which they were pushed, forward parents or not: a node
/// that is put around another is started after that one's Finish. `leaves` are the non-trivia tokens' places, then the text's end.
fn limits(events: &[Event], lent: usize, leaves: &[Range<usize>]) -> Result<usize, Refusal> {
    let room = (lent / EVENT).min(MOST_EVENTS);
    let mut taken = 0;
    let mut open = 0;
    let mut nodes: Vec<bool> = Vec::new();
    for (at, event) in events.iter().enumerate() {
        let opener = is_opener(events, at);
        if opener && open == MOST_OPENERS {
            return Err(Refusal(6, leaves[taken].start));
        }
        if at >= room {
            return Err(Refusal(5, leaves[taken].start));
        }
        match event {
            Event::Start { .. } => {
                nodes.push(opener);
                open += usize::from(opener);
            }
            Event::Token { .. } => taken += 1,
            Event::Finish => open -= usize::from(nodes.pop().expect("a Finish without a Start")),
            Event::Error { .. } => {}
            Event::Tombstone => panic!("a Tombstone, which 01 says never occurs"),
        }
    }
    assert!(nodes.is_empty(), "a Start without a Finish");
    Ok(taken)
}

/// Where the token with a number starts.
fn start(tokens: &[Token], number: usize) -> usize {
    tokens[..number].iter().map(|t| t.1).sum()
}

/// The tokens of a text, or one of the refusals 1 to 3 and 8.
fn tokens(record: &Record) -> Result<(&str, Vec<Token>), Refusal> {
    if record.text.len() > MOST_BYTES {
        return Err(Refusal(1, MOST_BYTES));
    }
    let text = std::str::from_utf8(&record.text).map_err(|e| Refusal(2, e.valid_up_to()))?;
    let tokens = tokenize(text);
    if tokens.len() > record.tokens {
        return Err(Refusal(3, start(&tokens, record.tokens)));
    }
    if let Some(place) = unclosed(text, &tokens, SyntaxKind::STRING_LIT) {
        return Err(Refusal(8, place));
    }
    Ok((text, tokens))
}

/// A section that is read: where its text's non-trivia tokens stand, then the text's end; how many of them it takes; its events, and the token of each.
struct Section {
    leaves: Vec<Range<usize>>,
    taken: usize,
    events: Vec<Event>,
    numbers: Vec<usize>,
}

/// A section, or one of the refusals 4 to 6.
fn section(text: &str, tokens: &[Token], lent: usize) -> Result<Section, Refusal> {
    let leaves = leaves(tokens);
    let first = tokens.iter().find(|(kind, _)| !kind.is_trivia());
    if first.is_none_or(|(kind, _)| *kind != SyntaxKind::PROPERTIES_KW) {
        return Err(Refusal(4, leaves[0].start));
    }
    let (events, numbers) = pushes::events(text, tokens);
    let taken = limits(&events, lent, &leaves)?;
    Ok(Section { leaves, taken, events, numbers })
}

impl Section {
    /// Two words for each event: the event, and its token.
    fn words(&self, messages: &Messages) -> Vec<u32> {
        let pairs = self.events.iter().zip(&self.numbers);
        pairs.flat_map(|(event, number)| [event_word(event, messages), *number as u32]).collect()
    }

    /// The records of all nodes, or refusal 7.
    fn records(&self, words: usize) -> Result<Vec<u32>, Refusal> {
        let nodes = nodes(&steps(self.events.clone()));
        match nodes.get(words / RECORD) {
            Some(node) => Err(Refusal(7, self.leaves[node.first].start)),
            None => Ok(nodes.iter().flat_map(Node::words).collect()),
        }
    }

    /// The value of the association with a number, or one of the refusals 9 and 10.
    fn value(&self, text: &str, number: usize) -> Result<i64, Refusal> {
        value(text, &self.events, &self.leaves, number).map_err(|(number, place)| Refusal(number, place))
    }
}

fn call(record: &Record, messages: &Messages) -> Result<Reading, Refusal> {
    let (text, tokens) = tokens(record)?;
    let mut reading = Reading::default();
    if let Call::Section { events } | Call::Tree { events, .. } | Call::Value { events, .. } = record.call {
        let section = section(text, &tokens, events)?;
        match record.call {
            Call::Tree { records, .. } => reading.records = section.records(records)?,
            Call::Value { association, .. } => reading.value = section.value(text, association as usize)?,
            _ => {}
        }
        reading.taken = section.taken;
        reading.events = section.words(messages);
    }
    reading.tokens = tokens.iter().map(|(kind, len)| *kind as u32 * 65_536 + *len as u32).collect();
    Ok(reading)
}

/// The parts of the token with a number: zeros if there is none, or if the text is refused, since no token has a word then.
fn parts_by_number(record: &Record, number: usize) -> [u32; 8] {
    let Ok((text, tokens)) = tokens(record) else { return [0; 8] };
    let Some((kind, len)) = tokens.get(number) else { return [0; 8] };
    let start = start(&tokens, number);
    parts(*kind, &text[start..start + len])
}

fn write_answer(lines: &mut Vec<u8>, record: &Record, messages: &Messages) {
    match record.call {
        Call::Parts { token } => write_words(lines, "parts", &parts_by_number(record, token as usize)),
        _ => write_record(lines, record, call(record, messages)),
    }
}

fn answer_all() -> io::Result<()> {
    let messages = Messages::new();
    let mut input = BufReader::with_capacity(1 << 16, io::stdin().lock());
    let mut output = BufWriter::with_capacity(1 << 16, io::stdout().lock());
    let mut lines = Vec::new();
    loop {
        lines.clear();
        match next(&mut input) {
            Next::End => break,
            Next::Bad => {
                output.write_all(b"bad record\n")?;
                break;
            }
            Next::Record(record) => {
                write_answer(&mut lines, &record, &messages);
                output.write_all(&lines)?;
            }
        }
    }
    output.flush()
}

/// The Rust's recursion has no bound, so it gets a large stack.
fn main() {
    let thread = std::thread::Builder::new().stack_size(1 << 30).spawn(answer_all);
    match thread.expect("no thread").join() {
        Ok(Ok(())) => {}
        Ok(Err(e)) => {
            eprintln!("oracle: {}", e);
            std::process::exit(1);
        }
        Err(_) => std::process::exit(1),
    }
}
