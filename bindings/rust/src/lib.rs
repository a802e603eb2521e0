//! Gigboda from Rust: the tokens of an AADL text, the events of its property section, the tree that they spell, and all of it in words. The
//! calls are proved; this crate hands them slices and takes their words apart, which is tested. It has no dependencies but the static library
//! that `tools/build library` writes, where build.rs finds it; a Cargo.toml names it by its folder, `gigboda = { path = "bindings/rust" }`.
//!
//! A section's tree is gone through step by step with [`Section::nodes`]; a [`Tree`] has a record for each node, from which its parent, its
//! children and its text are found without the events. Each event knows its token ([`Pushed`]), and so does each step and each node: its line
//! and column are [`Section::token_position`]'s. [`number_parts`] tells base, digits and exponent of a number, and [`association_value`]
//! computes sums and products.
//!
//! ```
//! use gigboda::Node;
//!
//! let text = b"properties\n  A => 1 ms\n";
//! let (mut tokens, mut events) = (vec![0; gigboda::MOST_BYTES], vec![0; gigboda::EVENT_WORDS * gigboda::MOST_EVENTS]);
//! let mut told = Vec::new();
//! match gigboda::property_section(text, &mut tokens, &mut events) {
//!     Err(refused) => told.push(format!("{}: {refused}", refused.position(text))),
//!     Ok(section) => {
//!         for step in section.nodes() {
//!             let indent = "  ".repeat(step.depth);
//!             match step.node {
//!                 Node::Enter(kind) => println!("{indent}{kind}"),
//!                 Node::Token(kind) => println!("{indent}{kind} {}", String::from_utf8_lossy(&text[step.place..step.end])),
//!                 Node::Error(message) => told.push(format!("{}: {message}", section.position(step.place))),
//!                 Node::Leave => {}
//!             }
//!         }
//!         assert!(!section.is_clean());
//!     }
//! }
//! assert_eq!(told, ["line 3, column 1: expected `;`"]);
//! ```
mod calls;
mod kinds;
mod messages;
mod nodes;
mod numbers;
mod places;
mod refusals;
mod tree;

pub use kinds::Kind;
pub use messages::Message;
pub use nodes::{Node, Nodes, Step};
pub use numbers::{number_parts, Number};
pub use places::{position, Position};
pub use refusals::{Refusal, Refused};
use std::ops::Range;
pub use tree::{Mistake, Record, Tree};

/// Most bytes of a text. A token has at least one: with as many token words no text is refused 3.
pub const MOST_BYTES: usize = 32_768;

/// Most events that are read. With [`EVENT_WORDS`] times as many event words a text is refused 5 only if its section has more events than
/// that, and more words do not help: `properties a=>` and 16,377 times `1,` is refused 5 whatever is lent.
pub const MOST_EVENTS: usize = 32_768;

/// Words of an event. An odd word at the end of those that are lent is never used.
pub const EVENT_WORDS: usize = 2;

/// Most nodes of a tree: each has two events, a Start and a Finish. With [`Tree::RECORD`] times as many record words no text is refused 7.
pub const MOST_NODES: usize = MOST_EVENTS / 2;

/// A token: its kind, and where it stands in the text.
#[derive(Debug, Clone, PartialEq, Eq)]
pub struct Token {
    pub kind: Kind,
    pub range: Range<usize>,
}

/// What an event is, by its first word. A Start with a forward parent opens inside the node of the Start that stands so many events further
/// on.
#[derive(Debug, Clone, Copy, PartialEq, Eq)]
pub enum Event {
    Start { kind: Kind, forward_parent: Option<u16> },
    Token { kind: Kind },
    Finish,
    Error { message: Message },
}

impl Event {
    /// The event in a first word, if there is such a class, kind or message.
    ///
    /// ```
    /// use gigboda::{Event, Kind};
    /// assert_eq!(Event::of(20_709_377), Some(Event::Token { kind: Kind::PROPERTIES_KW }));
    /// ```
    pub fn of(word: u32) -> Option<Event> {
        let [class, kind, high, low] = word.to_be_bytes();
        let kind = Kind::of(kind.into())?;
        let last = u16::from_be_bytes([high, low]);
        match class {
            0 => Some(Event::Start { kind, forward_parent: Some(last).filter(|n| *n != 0) }),
            1 => Some(Event::Token { kind }),
            2 => Some(Event::Finish),
            3 => Message::of(last).map(|message| Event::Error { message }),
            _ => None,
        }
    }
}

/// An event and its token, as its two words have them.
///
/// A node's first token, or the next one if it has none, is that of the Start at which the node opens: of the first Start of its chain. The node
/// of a range, a sum or a product is put around its first operand when that one is read, so that its own Start has the token behind that
/// operand:
///
/// ```
/// use gigboda::{Event, Kind, Node, Pushed};
///
/// let (mut tokens, mut events) = ([0; 32], [0; 64]);
/// let section = gigboda::property_section(b"properties\n A => 1\n .. 2;", &mut tokens, &mut events).unwrap();
/// let one = section.event(7).unwrap();
/// assert_eq!(one, Pushed { event: Event::Start { kind: Kind::INTEGER_VALUE, forward_parent: Some(3) }, token: 6 });
/// let range = section.event(10).unwrap();
/// assert_eq!(range, Pushed { event: Event::Start { kind: Kind::RANGE_VALUE, forward_parent: None }, token: 8 });
/// assert_eq!(section.token_position(range.token).to_string(), "line 3, column 2");
/// // The range opens at the first Start, before the `1`.
/// let entered = section.nodes().find(|step| step.node == Node::Enter(Kind::RANGE_VALUE)).unwrap();
/// assert_eq!(entered.token, one.token);
/// assert_eq!(section.token_position(entered.token).to_string(), "line 2, column 7");
/// ```
#[derive(Debug, Clone, Copy, PartialEq, Eq)]
pub struct Pushed {
    pub event: Event,
    /// A Token's number among all tokens, from 0, trivia too. Of any other event the next one's, trivia left out, that was not taken when it
    /// was pushed, or how many tokens there are. It never falls from event to event.
    pub token: usize,
}

impl Pushed {
    /// The event and its token in two words, if there is such an event.
    pub fn of([word, token]: [u32; EVENT_WORDS]) -> Option<Pushed> {
        Some(Pushed { event: Event::of(word)?, token: token as usize })
    }
}

/// The words of the event with a number, if there are both.
fn event_pair(words: &[u32], number: usize) -> Option<[u32; EVENT_WORDS]> {
    words.chunks_exact(EVENT_WORDS).nth(number)?.try_into().ok()
}

/// The refusal that an answer's number and place tell, if they do. A number that is none of the table's belongs to another library.
fn refused(number: usize, place: usize) -> Result<(), Refused> {
    match number {
        0 => Ok(()),
        _ => Err(Refused { refusal: Refusal::of(number).expect("libcapi.a of this crate's version"), place }),
    }
}

/// Whether a token word is a space's or a comment's.
fn is_trivia(word: u32) -> bool {
    Kind::of(word / 65_536).is_some_and(Kind::is_trivia)
}

/// Cuts a text into tokens: the words that are filled, kind × 65,536 + length each. The words behind them stay as they were; a refusal
/// leaves all of them 0.
///
/// ```
/// let mut words = [7; 4];
/// assert_eq!(gigboda::tokenize(b"A => 1", &mut words).unwrap_err().place, 5);
/// assert_eq!(gigboda::tokenize(b"A;", &mut words).unwrap().len(), 2);
/// ```
pub fn tokenize<'a>(text: &[u8], tokens: &'a mut [u32]) -> Result<&'a [u32], Refused> {
    let [number, place, count, ..] = calls::tokens(text, tokens);
    refused(number, place)?;
    Ok(&tokens[..count])
}

/// Reads a property section: tokens and events into lent words, two for each event. Those that are not filled stay as they were, an odd
/// last event word among them. A refusal leaves all of them 0.
pub fn property_section<'a>(text: &'a [u8], tokens: &'a mut [u32], events: &'a mut [u32]) -> Result<Section<'a>, Refused> {
    let [number, place, count, taken, pushed] = calls::section(text, tokens, events);
    refused(number, place)?;
    Ok(Section { text, token_words: &tokens[..count], event_words: &events[..EVENT_WORDS * pushed], taken })
}

/// Reads a property section as [`property_section`] does, and its tree: a record for each node into lent words, four words each. Words that
/// are not filled stay as they were. A refusal leaves all of them 0.
///
/// ```
/// let (mut tokens, mut events, mut records) = ([7; 32], [7; 32], [7; 16]);
/// let tree = gigboda::property_tree(b"properties none;", &mut tokens, &mut events, &mut records).unwrap();
/// assert_eq!((tree.len(), tree.range(0)), (1, 0..16));
/// let refused = gigboda::property_tree(b"properties A => 1;", &mut tokens, &mut events, &mut records[..15]).unwrap_err();
/// assert_eq!(refused.to_string(), "more nodes than the tool has room for (refusal 7 at byte 16)");
/// ```
pub fn property_tree<'a>(
    text: &'a [u8],
    tokens: &'a mut [u32],
    events: &'a mut [u32],
    records: &'a mut [u32],
) -> Result<Tree<'a>, Refused> {
    let [number, place, count, taken, pushed, nodes] = calls::tree(text, tokens, events, records);
    refused(number, place)?;
    let section = Section { text, token_words: &tokens[..count], event_words: &events[..EVENT_WORDS * pushed], taken };
    Ok(Tree { section, record_words: &records[..Tree::RECORD * nodes] })
}

/// Reads a property section as [`property_section`] does, and computes the first value of the association with a number, from 0. The value is
/// a constant: integers without a unit, with and without a base, signs, and `+`, `-` and `*`, of which `*` comes before the others; `(1)` is a
/// list. Every literal, read without its sign, and every partial result must be an `i64`. Words that are not filled stay as they were. A
/// refusal leaves all of them 0.
///
/// ```
/// let (mut tokens, mut events) = ([7; 64], [7; 128]);
/// let text = b"properties Validity => 365 * 24 + 16#C#; Grace => 30 days; Most => 9223372036854775807 + 1;";
/// let mut value = |number| gigboda::association_value(text, &mut tokens, &mut events, number);
/// assert_eq!(value(0), Ok(8_772));
/// assert_eq!(value(1).unwrap_err().to_string(), "no whole number to compute (refusal 9 at byte 41)");
/// assert_eq!(value(2).unwrap_err().to_string(), "a number is out of range (refusal 10 at byte 87)");
/// assert_eq!(value(3).unwrap_err().place, text.len());
/// ```
pub fn association_value(text: &[u8], tokens: &mut [u32], events: &mut [u32], number: usize) -> Result<i64, Refused> {
    let (value, [refusal, place, ..]) = calls::value(text, tokens, events, number);
    refused(refusal, place)?;
    Ok(value)
}

/// The text of a token by its number, from 0: a part of the text, or the empty part if there is no such word or the lengths up to it
/// pass the text's end. The words may be any.
pub fn token_text<'a>(text: &'a [u8], words: &[u32], number: usize) -> &'a [u8] {
    let [start, length] = calls::token_part(text, words, number);
    &text[start..start + length]
}

/// The tokens in words that are filled, one after another, up to a word without a kind.
///
/// ```
/// let mut words = [0; 4];
/// let filled = gigboda::tokenize(b"A;", &mut words).unwrap();
/// let kinds: Vec<String> = gigboda::tokens(filled).map(|token| token.kind.to_string()).collect();
/// assert_eq!(kinds, ["IDENT", "SEMICOLON"]);
/// ```
pub fn tokens(words: &[u32]) -> impl Iterator<Item = Token> + '_ {
    let mut at = 0;
    words.iter().map_while(move |word| {
        let start = at;
        at += (word % 65_536) as usize;
        Kind::of(word / 65_536).map(|kind| Token { kind, range: start..at })
    })
}

/// A section that was read: its text, and the words that are filled.
#[derive(Debug, Clone, Copy)]
pub struct Section<'a> {
    pub text: &'a [u8],
    pub token_words: &'a [u32],
    /// Two for each event.
    pub event_words: &'a [u32],
    /// How many tokens, trivia not counted, the section takes.
    pub taken: usize,
}

impl<'a> Section<'a> {
    /// All tokens of the text.
    pub fn tokens(&self) -> impl Iterator<Item = Token> + 'a {
        tokens(self.token_words)
    }

    /// The events as they were pushed, each with its token.
    pub fn events(&self) -> impl Iterator<Item = Pushed> + 'a {
        let section = *self;
        (0..).map_while(move |number| section.event(number))
    }

    /// The event with a number, from 0, and its token.
    pub fn event(&self, number: usize) -> Option<Pushed> {
        Pushed::of(event_pair(self.event_words, number)?)
    }

    /// Where the token with a number starts, trivia counted too, as in [`Pushed::token`] and [`Step::token`]; the text's end for as many as
    /// there are.
    ///
    /// ```
    /// let (mut tokens, mut events) = ([0; 32], [0; 32]);
    /// let section = gigboda::property_section(b"properties\n  A => 1 ms;\n", &mut tokens, &mut events).unwrap();
    /// let places: Vec<usize> = section.events().map(|pushed| section.token_place(pushed.token)).collect();
    /// assert_eq!(places, [0, 0, 13, 13, 13, 15, 15, 18, 18, 20, 22, 22, 24, 24]);
    /// assert_eq!(section.token_position(section.event(9).unwrap().token).to_string(), "line 2, column 10");
    /// ```
    pub fn token_place(&self, token: usize) -> usize {
        self.token_words.iter().take(token).map(|word| (word % 65_536) as usize).sum()
    }

    /// Line and column of the token with a number, or of the text's end: for an event's those that `list` prints.
    pub fn token_position(&self, token: usize) -> Position {
        self.position(self.token_place(token))
    }

    /// The tree that the events spell, in the text's order.
    ///
    /// ```
    /// use gigboda::{Kind, Node};
    /// let (mut tokens, mut events) = ([0; 32], [0; 32]);
    /// let section = gigboda::property_section(b"properties A => 1 ms;", &mut tokens, &mut events).unwrap();
    /// let value = section.nodes().find(|step| step.node == Node::Enter(Kind::INTEGER_VALUE)).unwrap();
    /// assert_eq!((value.depth, value.token, value.place), (2, 6, 16));
    /// ```
    pub fn nodes(&self) -> Nodes<'a> {
        Nodes::new(self.token_words, self.event_words)
    }

    /// Line and column of a place in the text.
    pub fn position(&self, place: usize) -> Position {
        position(self.text, place)
    }

    /// Whether there is no Error and every token is taken: exactly when the section grammar derives the text.
    pub fn is_clean(&self) -> bool {
        calls::is_clean(self.taken, self.token_words, self.event_words)
    }
}

#[cfg(test)]
mod tests;
