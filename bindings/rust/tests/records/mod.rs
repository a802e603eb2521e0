//! Records: a call, a text and how many words are lent. tools/README.md says how they are written. Not every test reads all of a record.
#![allow(dead_code)]
use gigboda::Number;

/// What stands in a record for the tokens-only call, before a record that says which call it asks for, and for the largest settings.
pub const NONE: u32 = u32::MAX;

/// The calls that a record names: the section call or the tokens-only call, the tree call, the parts of a number, and the value call.
pub const PLAIN: u32 = 0;
pub const TREE: u32 = 1;
pub const PARTS: u32 = 5;
pub const VALUE: u32 = 6;

pub struct Record<'a> {
    pub call: u32,
    pub text: &'a [u8],
    pub tokens: u32,
    /// How many event words are lent, or `NONE` for the tokens-only call.
    pub events: u32,
    /// The call's own number: how many record words are lent to the tree call, or the number of the token whose parts are asked for, or of the
    /// association whose value is.
    pub own: u32,
}

impl Record<'_> {
    pub fn is_section(&self) -> bool {
        self.call != PARTS && self.events != NONE
    }
}

/// The eight numbers that a line has for a number's parts.
pub fn parts(number: Number) -> [usize; 8] {
    let Number { kind, len, base, inner, closed, exponent } = number;
    [kind as usize, len, base.start, base.end, inner.start, inner.end, closed.into(), exponent.into()]
}

/// The next number, and the bytes behind it.
fn number(bytes: &[u8]) -> (u32, &[u8]) {
    let (first, rest) = bytes.split_first_chunk().expect("four bytes");
    (u32::from_le_bytes(*first), rest)
}

/// The next numbers, and the bytes behind them.
fn numbers<const N: usize>(mut bytes: &[u8]) -> ([u32; N], &[u8]) {
    let all = std::array::from_fn(|_| {
        let (next, rest) = number(bytes);
        bytes = rest;
        next
    });
    (all, bytes)
}

/// The record with which bytes begin, and the bytes behind it.
fn next(bytes: &[u8]) -> (Record<'_>, &[u8]) {
    let (length, call, tokens, events, own, rest) = match number(bytes) {
        (NONE, rest) => {
            let ([call, settings, length, tokens, events, own], rest) = numbers(rest);
            assert!([PLAIN, TREE, PARTS, VALUE].contains(&call) && settings == NONE, "a call that is not known, or settings");
            (length, call, tokens, events, own, rest)
        }
        (length, rest) => {
            let ([tokens, events], rest) = numbers(rest);
            (length, PLAIN, tokens, events, 0, rest)
        }
    };
    let (text, rest) = rest.split_at(length as usize);
    (Record { call, text, tokens, events, own }, rest)
}

/// The records in bytes, one after another.
pub fn records(mut bytes: &[u8]) -> Vec<Record<'_>> {
    let mut all = Vec::new();
    while !bytes.is_empty() {
        let (record, rest) = next(bytes);
        all.push(record);
        bytes = rest;
    }
    all
}
