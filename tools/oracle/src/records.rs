//! Records as tools/README.md has them: how one is read, and what is written for its answer.
use std::io::{ErrorKind, Read};

/// A record's limits; that of the event words is twice as high, and that of the record words four times.
const MOST_IN_RECORD: u32 = 40_000;
const MOST_EVENT_WORDS: u32 = EVENT as u32 * MOST_IN_RECORD;
const MOST_RECORD_WORDS: u32 = RECORD as u32 * MOST_IN_RECORD;

/// The words of an event, and of a record of the tree call.
pub const EVENT: usize = 2;
pub const RECORD: usize = 4;

/// In the place of a number: the extended form, the largest settings, no event words.
const NONE: u32 = u32::MAX;

/// The call that a record asks for, with the words that it lends besides token words, and the number of the token or of the association that it
/// asks about.
pub enum Call {
    Tokens,
    Section { events: usize },
    Tree { events: usize, records: usize },
    Parts { token: u32 },
    Value { events: usize, association: u32 },
}

pub struct Record {
    pub text: Vec<u8>,
    pub tokens: usize,
    pub call: Call,
}

pub enum Next {
    Record(Record),
    End,
    Bad,
}

/// A refusal's number and place.
pub struct Refusal(pub u32, pub usize);

/// What a call that is not refused leaves: token words, tokens taken, event words, record words; and its value.
#[derive(Default)]
pub struct Reading {
    pub tokens: Vec<u32>,
    pub taken: usize,
    pub events: Vec<u32>,
    pub records: Vec<u32>,
    pub value: i64,
}

pub fn write_words(out: &mut Vec<u8>, name: &str, words: &[u32]) {
    write_row(out, name, words);
    out.push(b'\n');
}

/// A line without its end.
fn write_row(out: &mut Vec<u8>, name: &str, words: &[u32]) {
    out.extend_from_slice(name.as_bytes());
    for w in words {
        out.push(b' ');
        write_number(out, *w);
    }
}

fn write_number(out: &mut Vec<u8>, number: u32) {
    let mut digits = [0; 10];
    let mut at = digits.len();
    let mut left = number;
    loop {
        at -= 1;
        digits[at] = b'0' + (left % 10) as u8;
        left /= 10;
        if left == 0 {
            break;
        }
    }
    out.extend_from_slice(&digits[at..]);
}

/// A refusal counts and leaves nothing, and zeroes every lent word; otherwise the unused ones keep what they held.
pub fn write_record(out: &mut Vec<u8>, record: &Record, answer: Result<Reading, Refusal>) {
    let (Refusal(number, place), read) = match answer {
        Ok(read) => (Refusal(0, 0), read),
        Err(refusal) => (refusal, Reading::default()),
    };
    let rest = |lent: usize, words: &[u32]| (lent - words.len()) as u32;
    let (events, records) = match record.call {
        Call::Section { events } | Call::Value { events, .. } => (events, None),
        Call::Tree { events, records } => (events, Some(records)),
        _ => (0, None),
    };
    let added = records.map(|_| read.records.len() / RECORD);
    let counts = [place, read.tokens.len(), read.taken, read.events.len() / EVENT];
    let numbers: Vec<u32> = counts.into_iter().chain(added).map(|n| n as u32).collect();
    write_row(out, "answer", &[&[number], &numbers[..]].concat());
    if let Call::Value { .. } = record.call {
        out.extend_from_slice(format!(" {}", read.value).as_bytes());
    }
    out.push(b'\n');
    write_words(out, "tokens", &read.tokens);
    write_words(out, "events", &read.events);
    write_words(out, "rest", &[rest(record.tokens, &read.tokens), rest(events, &read.events)]);
    if let Some(lent) = records {
        write_words(out, "more", &read.records);
        write_words(out, "left", &[rest(lent, &read.records)]);
    }
}

/// As many bytes as there are, up to the buffer's length.
fn read_full(input: &mut impl Read, buf: &mut [u8]) -> usize {
    let mut done = 0;
    while done < buf.len() {
        match input.read(&mut buf[done..]) {
            Ok(0) => break,
            Ok(n) => done += n,
            Err(e) if e.kind() == ErrorKind::Interrupted => {}
            Err(_) => break,
        }
    }
    done
}

/// The next numbers, or how many bytes there are if that is too few.
fn numbers<const N: usize>(input: &mut impl Read) -> Result<[u32; N], usize> {
    let mut bytes = [[0; 4]; N];
    match read_full(input, bytes.as_flattened_mut()) {
        n if n == 4 * N => Ok(bytes.map(u32::from_le_bytes)),
        n => Err(n),
    }
}

/// A number that is not over its limit.
fn within(number: u32, most: u32) -> Option<usize> {
    (number <= most).then_some(number as usize)
}

/// The call by its number in a record, with the record's settings, the lent event words and the call's own number.
fn call(number: u32, settings: u32, events: u32, own: u32) -> Option<Call> {
    let lent = if events == NONE { None } else { Some(within(events, MOST_EVENT_WORDS)?) };
    match (number, settings, own) {
        (0, NONE, 0) => Some(lent.map_or(Call::Tokens, |events| Call::Section { events })),
        (1, NONE, _) => Some(Call::Tree { events: lent.unwrap_or(0), records: within(own, MOST_RECORD_WORDS)? }),
        (5, NONE, _) => Some(Call::Parts { token: own }),
        (6, NONE, _) => Some(Call::Value { events: lent.unwrap_or(0), association: own }),
        _ => None,
    }
}

/// A record whose numbers are read, with its text.
fn record(input: &mut impl Read, length: u32, tokens: u32, call: Call) -> Option<Record> {
    let mut text = vec![0; within(length, MOST_IN_RECORD)?];
    let tokens = within(tokens, MOST_IN_RECORD)?;
    (read_full(input, &mut text) == text.len()).then_some(Record { text, tokens, call })
}

/// The rest of a record behind its first three numbers.
fn behind(input: &mut impl Read, first: [u32; 3]) -> Option<Record> {
    let [NONE, number, settings] = first else {
        let [length, tokens, events] = first;
        return record(input, length, tokens, call(0, NONE, events, 0)?);
    };
    let [length, tokens, events, own] = numbers(input).ok()?;
    record(input, length, tokens, call(number, settings, events, own)?)
}

pub fn next(input: &mut impl Read) -> Next {
    match numbers(input) {
        Ok(first) => behind(input, first).map_or(Next::Bad, Next::Record),
        Err(0) => Next::End,
        Err(_) => Next::Bad,
    }
}
