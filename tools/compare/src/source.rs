//! Where the records come from: texts of all families, with more or fewer words lent.
use crate::programs::{Form, Record, TOKENS_ONLY};
use texts::families::{self, Family, Maker};
use texts::random::Rng;
use texts::{lexer, sections, values};

/// The most bytes or token words that a record has, the most event words, and the most record words.
const MOST: usize = 40_000;
const MOST_EVENTS: usize = EVENT * MOST;
const MOST_RECORDS: usize = RECORD * MOST;

/// The words of an event, and of a record of the tree call.
pub const EVENT: usize = 2;
pub const RECORD: usize = 4;

/// A text has fewer events than so many for each of its bytes: fewer than eight for each token.
pub const EVENTS_OF_A_BYTE: usize = 8;

/// One batch goes through one run of each program.
const BATCH_RECORDS: usize = 20_000;
const BATCH_BYTES: usize = 2_000_000;

/// A long text once in so many.
const LONG_ONCE_IN: usize = 4_000;

/// Of the texts at random, one in so many gets a quote more or fewer.
const QUOTE_ONCE_IN: usize = 16;

/// Of the answered records, one in so many is asked again with exactly enough words, and with too few.
const AGAIN_ONCE_IN: usize = 8;

/// For the value call a long chain once in so many.
const CHAIN_ONCE_IN: usize = 1_000;

/// For the parts of numbers a text at random is asked about its first token, and again about so many others.
const OTHER_TOKENS: usize = 3;

/// Which call is made.
#[derive(Clone, Copy, PartialEq)]
pub enum Call {
    Tokens,
    Section,
    Tree,
    Parts,
    Value,
}

pub struct Source {
    pub families: Vec<Family>,
    pub names: Vec<&'static str>,
    pub call: Call,
    pub rng: Rng,
    /// Records that an answer asked for, or that ask about other tokens of a text.
    asked: Vec<Record>,
}

const EXTRA: [&str; 6] = ["long texts", "many events", "word counts", "unclosed strings", "other tokens", "long chains"];

impl Source {
    pub fn new(seed: u64, call: Call) -> Source {
        let families = match call {
            Call::Tokens => families::tokens(),
            Call::Parts => families::numbers(),
            Call::Section | Call::Tree => families::sections(),
            Call::Value => families::values(),
        };
        let names = families.iter().map(|f| f.name).chain(EXTRA).collect();
        Source { families, names, call, rng: Rng::new(seed), asked: Vec::new() }
    }

    fn extra(&self, which: usize) -> usize {
        self.families.len() + which
    }

    /// Whether a family gives each of its texts once.
    fn gives_every(&self, family: usize) -> bool {
        matches!(self.families.get(family), Some(Family { maker: Maker::Every(_), .. }))
    }

    /// The family of the texts that are refused for a string that is not closed.
    pub fn unclosed(&self) -> usize {
        self.extra(3)
    }

    /// A family that still has texts: half the time one that gives each of its texts once, by how many it has left.
    fn family(&mut self) -> usize {
        let left: Vec<u64> = self.families.iter().map(|f| if let Maker::Every(e) = &f.maker { e.left() } else { 0 }).collect();
        let random: Vec<u64> =
            self.families.iter().map(|f| if let Maker::Random(w, _) = &f.maker { u64::from(*w) } else { 0 }).collect();
        let weights = if left.iter().sum::<u64>() > 0 && self.rng.once_in(2) { left } else { random };
        let mut at = self.rng.below(weights.iter().sum::<u64>() as usize) as u64;
        for (i, w) in weights.iter().enumerate() {
            if at < *w {
                return i;
            }
            at -= w;
        }
        unreachable!("some weight is larger")
    }

    fn text(&mut self) -> (usize, Vec<u8>) {
        if self.rng.once_in(LONG_ONCE_IN) {
            return (self.extra(0), lexer::long(&mut self.rng));
        }
        if matches!(self.call, Call::Section | Call::Tree | Call::Value) && self.rng.once_in(LONG_ONCE_IN) {
            return (self.extra(1), sections::many_events(&mut self.rng));
        }
        if self.call == Call::Value && self.rng.once_in(CHAIN_ONCE_IN) {
            return (self.extra(5), values::chain(&mut self.rng));
        }
        let family = self.family();
        let text = match &mut self.families[family].maker {
            Maker::Every(e) => e.next().expect("some left"),
            Maker::Random(_, make) => {
                let text = make(&mut self.rng);
                if self.rng.once_in(QUOTE_ONCE_IN) { lexer::with_quote(&mut self.rng, text) } else { text }
            }
        };
        (family, text)
    }

    /// How many words to lend for a count that is enough: more, as many, or fewer.
    pub fn lent(&mut self, enough: usize) -> u32 {
        self.lent_within(enough, MOST)
    }

    /// The same of event words for a text of so many bytes. As often as not they are an odd number, whose last word no event can have.
    pub fn lent_events(&mut self, bytes: usize) -> u32 {
        self.lent_within(EVENT * EVENTS_OF_A_BYTE * bytes, MOST_EVENTS)
    }

    /// Event words in plenty, an odd number of them or not.
    fn plenty_of_events(&mut self, bytes: usize) -> u32 {
        (EVENT * EVENTS_OF_A_BYTE * bytes + self.rng.below(EVENT)).min(MOST_EVENTS) as u32
    }

    fn lent_within(&mut self, enough: usize, bound: usize) -> u32 {
        let most = enough.min(bound);
        let lent = match self.rng.below(8) {
            0 => self.rng.below(most + 1),
            1 => self.rng.below(2),
            2 => most,
            _ => most + self.rng.below(3),
        };
        lent.min(bound) as u32
    }

    /// A new record. A text has no more tokens than bytes, and of its events two are a node's.
    fn next(&mut self) -> Record {
        if let Some(record) = self.asked.pop() {
            return record;
        }
        let (family, text) = self.text();
        let bytes = text.len();
        let words = (bytes + 1).min(MOST) as u32;
        let (tokens, events, form) = match self.call {
            Call::Tokens => (self.lent(bytes), TOKENS_ONLY, Form::Plain),
            Call::Section => (words, self.lent_events(bytes), Form::Plain),
            Call::Tree => {
                let records = self.lent_within(EVENTS_OF_A_BYTE / 2 * RECORD * bytes, MOST_RECORDS);
                (words, self.plenty_of_events(bytes), Form::Tree(records))
            }
            Call::Parts => {
                let tokens = if self.rng.once_in(4) { self.lent(bytes) } else { words };
                (tokens, *self.rng.pick(&[TOKENS_ONLY, 0, 1, MOST as u32]), Form::Parts(0))
            }
            Call::Value => {
                let events = if self.rng.once_in(8) { self.lent_events(bytes) } else { self.plenty_of_events(bytes) };
                let number = self.association(&text);
                (words, if self.rng.once_in(128) { TOKENS_ONLY } else { events }, Form::Value(number))
            }
        };
        let record = Record { family, text, tokens, events, form };
        if self.call == Call::Parts && !self.gives_every(family) {
            self.ask_about_others(&record);
        }
        record
    }

    /// The number of an association: mostly of one that is there, by the arrows of the text outside of comments; else of the first behind them, or any.
    fn association(&mut self, text: &[u8]) -> u32 {
        let text = String::from_utf8_lossy(text);
        let arrows = text.lines().filter_map(|line| line.split("--").next()).flat_map(|line| line.matches("=>")).count();
        match self.rng.below(32) {
            0 => self.rng.next() as u32,
            1 => arrows as u32,
            _ => self.rng.below(arrows.max(1)) as u32,
        }
    }

    /// The same text with other token numbers: mostly as if a token had four bytes or more, so that many are there; else up to one above the text's bytes, since there
    /// are no more tokens, or any.
    fn ask_about_others(&mut self, record: &Record) {
        let family = self.extra(4);
        let bytes = record.text.len();
        for _ in 0..OTHER_TOKENS {
            let number = match self.rng.below(16) {
                0 => self.rng.next() as u32,
                1 => self.rng.below(bytes + 2) as u32,
                _ => 1 + self.rng.below(bytes / 4 + 1) as u32,
            };
            self.asked.push(Record { family, form: Form::Parts(number), ..record.clone() });
        }
    }

    /// The same text with exactly as many words as the answer counts, and with fewer; of event words also with one more, which stays as it was.
    pub fn again(&mut self, record: &Record, tokens: usize, events: usize, records: usize) {
        if record.family == self.extra(2) || !self.rng.once_in(AGAIN_ONCE_IN) {
            return;
        }
        let family = self.extra(2);
        let ask = |tokens: usize, events: u32, form: Form| Record { family, text: record.text.clone(), tokens: tokens as u32, events, form };
        let fewer = |n: usize| n.saturating_sub(1);
        let pairs = EVENT * events;
        match self.call {
            Call::Tokens => {
                self.asked.push(ask(tokens, TOKENS_ONLY, Form::Plain));
                self.asked.push(ask(fewer(tokens), TOKENS_ONLY, Form::Plain));
            }
            Call::Section | Call::Value => {
                for words in [pairs, pairs + 1, fewer(pairs), fewer(fewer(pairs)), self.rng.below(pairs + 1)] {
                    self.asked.push(ask(tokens, words as u32, record.form));
                }
                self.asked.push(ask(fewer(tokens), pairs as u32, record.form));
            }
            Call::Tree => {
                let exact = RECORD * records;
                for words in [exact, exact + RECORD - 1, fewer(exact), self.rng.below(exact + 1)] {
                    self.asked.push(ask(tokens, pairs as u32, Form::Tree(words as u32)));
                }
                for words in [pairs + 1, fewer(pairs), self.rng.below(pairs + 1)] {
                    self.asked.push(ask(tokens, words as u32, Form::Tree(exact as u32)));
                }
                self.asked.push(ask(fewer(tokens), pairs as u32, Form::Tree(exact as u32)));
            }
            // A line `parts` counts no words.
            Call::Parts => {}
        }
    }

    /// The same text with fewer token words, so that 3 comes before 8, or 8 is behind the last word.
    pub fn again_with_fewer(&mut self, record: &Record) {
        let family = self.extra(2);
        if record.family != family && self.rng.once_in(AGAIN_ONCE_IN) {
            for _ in 0..2 {
                let tokens = self.rng.below(record.text.len().min(16) + 1) as u32;
                self.asked.push(Record { family, tokens, ..record.clone() });
            }
        }
    }

    /// The same text with about as many event words as stand before the 65th opener, so that 5 or 6 comes first.
    pub fn again_at_openers(&mut self, record: &Record) {
        let family = self.extra(2);
        if record.family != family {
            for _ in 0..4 {
                let events = (EVENT * 120 + self.rng.below(EVENT * 360)) as u32;
                self.asked.push(Record { family, events, ..record.clone() });
            }
        }
    }

    pub fn batch(&mut self, most: usize) -> Vec<Record> {
        let mut records = Vec::new();
        let mut size = 0;
        while records.len() < most.min(BATCH_RECORDS) && size < BATCH_BYTES {
            let record = self.next();
            size += record.text.len() + 12;
            records.push(record);
        }
        records
    }
}
