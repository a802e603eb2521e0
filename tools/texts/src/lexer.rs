//! Random texts for the lexer.
use crate::random::Rng;
use crate::words::{KEYWORDS, LITERALS, MARKS, NAMES, SECTIONS};
use std::ops::RangeInclusive;

const DIGITS: &[u8] = b"0123456789";

/// One of some words that are parted by spaces.
pub fn one_of<'a>(rng: &mut Rng, from: &'a str) -> &'a str {
    let all: Vec<&str> = from.split_whitespace().collect();
    all[rng.below(all.len())]
}

/// Bytes of all values, or of a narrower sort.
pub fn bytes(rng: &mut Rng) -> Vec<u8> {
    let sort = rng.below(4);
    (0..rng.below(40))
        .map(|_| match sort {
            0 => rng.below(256) as u8,
            1 => rng.below(128) as u8,
            2 => 32 + rng.below(95) as u8,
            _ => *rng.pick(b" \n\t\r-\"#.0123456789abcdefxobEXOB_+=>:[](){}*<;,/"),
        })
        .collect()
}

/// A keyword in any case, mostly with a small change, and what stands around it.
pub fn keyword(rng: &mut Rng) -> Vec<u8> {
    let mut w: Vec<u8> = one_of(rng, KEYWORDS).bytes().collect();
    let sort = rng.below(3);
    for b in &mut w {
        if sort == 1 || (sort == 2 && rng.once_in(2)) {
            *b = b.to_ascii_uppercase();
        }
    }
    for _ in 0..rng.below(3) {
        let at = rng.below(w.len() + 1);
        match rng.below(4) {
            0 if at < w.len() => drop(w.remove(at)),
            1 => w.insert(at, *rng.pick(b"aszeinorAZ_09@[`{/:")),
            2 if at < w.len() => w[at] = *rng.pick(b"aszeinorAZ_09@[`{/:"),
            3 if at < w.len() => w[at] ^= 1 << rng.below(7),
            _ => {}
        }
    }
    if rng.once_in(3) {
        w.insert(0, *rng.pick(b" _a1.-\"("));
    }
    if rng.once_in(3) {
        w.push(*rng.pick(b" _a1.-\"(\xC3"));
    }
    w
}

/// Up to three bytes changed to some that numbers have, or such bytes put in.
fn change_number(rng: &mut Rng, text: &mut Vec<u8>) {
    for _ in 0..rng.below(4) {
        let at = rng.below(text.len() + 1);
        let b = *rng.pick(b"0127890_.#eE+-xXoObBfFgG \"");
        if at < text.len() && rng.once_in(2) {
            text[at] = b
        } else {
            text.insert(at, b)
        }
    }
}

/// A number in the neighbourhood of every form that numbers have.
pub fn number(rng: &mut Rng) -> Vec<u8> {
    let mut text = Vec::new();
    for _ in 0..1 + rng.below(2) {
        text.extend_from_slice(one_of(rng, LITERALS).as_bytes());
    }
    change_number(rng, &mut text);
    text
}

/// Some of the bytes that are given, as many as a range allows.
fn run(rng: &mut Rng, text: &mut Vec<u8>, from: &[u8], count: RangeInclusive<usize>) {
    for _ in 0..count.start() + rng.below(count.end() - count.start() + 1) {
        text.push(*rng.pick(from));
    }
}

fn exponent(rng: &mut Rng, text: &mut Vec<u8>) {
    if rng.once_in(2) {
        run(rng, text, b"eE", 1..=1);
        run(rng, text, b"+-", 0..=1);
        run(rng, text, DIGITS, 0..=2);
    }
}

/// A number: C-style, based or decimal, with each of its parts there or not.
fn literal(rng: &mut Rng, text: &mut Vec<u8>) {
    match rng.below(6) {
        0 => {
            text.push(b'0');
            run(rng, text, b"xXoObB", 1..=1);
            run(rng, text, b"012789aFgG_", 1..=4);
        }
        1..=3 => {
            run(rng, text, DIGITS, 1..=2);
            text.push(b'#');
            run(rng, text, b"0189aAeEfF._", 0..=6);
            run(rng, text, b"#", 0..=1);
            exponent(rng, text);
        }
        _ => {
            run(rng, text, DIGITS, 1..=3);
            run(rng, text, b"._", 0..=1);
            run(rng, text, DIGITS, 0..=3);
            exponent(rng, text);
        }
    }
}

/// Up to five numbers put together from their parts, with nothing or little between them; half of the texts with small changes, a few with a long run of one byte.
pub fn literals(rng: &mut Rng) -> Vec<u8> {
    let mut text = Vec::new();
    for _ in 0..1 + rng.below(5) {
        literal(rng, &mut text);
        text.extend_from_slice(rng.pick(&["", " ", "..", "-", "ms;", "\n"]).as_bytes());
    }
    if rng.once_in(2) {
        change_number(rng, &mut text);
    }
    if rng.once_in(32) {
        let at = rng.below(text.len() + 1);
        text.splice(at..at, vec![*rng.pick(b"1_F"); rng.below(300)]);
    }
    text
}

/// Tokens side by side.
pub fn tokens(rng: &mut Rng) -> Vec<u8> {
    let mut text = Vec::new();
    for _ in 0..rng.below(12) {
        let w = match rng.below(7) {
            0 => one_of(rng, KEYWORDS),
            1 | 2 => one_of(rng, MARKS),
            3 => one_of(rng, LITERALS),
            4 => one_of(rng, NAMES),
            5 => rng.pick(&[
                "--",
                "-- c\n",
                "\"",
                "\"\"",
                "é",
                "日",
                "𝄞",
                "\u{7f}",
                "\0",
                "\u{80}",
                "\u{d7ff}",
                "\u{e000}",
                "\u{10ffff}",
            ]),
            _ => rng.pick(&[" ", "\n", "\t", "\r\n", "  "]),
        };
        text.extend_from_slice(w.as_bytes());
    }
    text
}

/// A character with its length in bytes evenly spread, often at the edge of a range.
fn character(rng: &mut Rng) -> char {
    let edges = [
        '\u{0}',
        '\u{7f}',
        '\u{80}',
        '\u{7ff}',
        '\u{800}',
        '\u{fff}',
        '\u{1000}',
        '\u{d7ff}',
        '\u{e000}',
        '\u{ffff}',
        '\u{10000}',
        '\u{3ffff}',
        '\u{40000}',
        '\u{fffff}',
        '\u{100000}',
        '\u{10ffff}',
    ];
    if rng.once_in(2) {
        return *rng.pick(&edges);
    }
    let top = *rng.pick(&[0x80, 0x800, 0x10000, 0x110000]);
    char::from_u32(rng.below(top) as u32).unwrap_or('x')
}

/// Well-formed UTF-8.
pub fn good(rng: &mut Rng) -> Vec<u8> {
    (0..rng.below(10)).map(|_| character(rng)).collect::<String>().into_bytes()
}

/// UTF-8 with a few bytes changed, cut off or put in.
pub fn bad(rng: &mut Rng) -> Vec<u8> {
    let mut text = good(rng);
    for _ in 0..1 + rng.below(2) {
        let at = rng.below(text.len() + 1);
        let b =
            *rng.pick(b"\x00a\x7f\x80\x8f\x90\x9f\xa0\xbf\xc0\xc1\xc2\xdf\xe0\xe1\xec\xed\xee\xef\xf0\xf1\xf3\xf4\xf5\xf8\xff");
        match rng.below(4) {
            0 => text.truncate(at),
            1 if at < text.len() => drop(text.remove(at)),
            2 if at < text.len() => text[at] = b,
            _ => text.insert(at, b),
        }
    }
    text
}

/// One of our sections with a few bytes changed, cut off or put in.
pub fn damaged(rng: &mut Rng) -> Vec<u8> {
    let mut text = rng.pick(&SECTIONS).as_bytes().to_vec();
    for _ in 0..rng.below(4) {
        let n = text.len();
        if n == 0 {
            break;
        }
        let at = rng.below(n);
        match rng.below(6) {
            0 => drop(text.remove(at)),
            1 => text.insert(at, rng.below(256) as u8),
            2 => text[at] = *rng.pick(b" \n-\"#.0xe_;:=>()[]{}*+,a"),
            3 => text.truncate(at),
            4 => drop(text.drain(..at)),
            _ => {
                let end = at + rng.below(n - at);
                drop(text.drain(at..end));
            }
        }
    }
    text
}

/// A text about as long as a text may be: one token, few or many, with an odd end.
pub fn long(rng: &mut Rng) -> Vec<u8> {
    let length = match rng.below(10) {
        0..=5 => 32_766 + rng.below(5),
        6 => 40_000,
        7 => 32_769 + rng.below(7_000),
        _ => rng.below(32_769),
    };
    let pieces: [&[u8]; 12] =
        [b"x", b" ", b"\"", b"-- ", b"1", b"a ", b"+", b"properties ", b"(1,2)", "é".as_bytes(), "日".as_bytes(), b"\"a\"\n"];
    let piece = *rng.pick(&pieces);
    let mut text = Vec::new();
    if rng.once_in(2) {
        text.extend_from_slice(b"properties ");
    }
    while text.len() < length {
        text.extend_from_slice(piece);
    }
    text.truncate(length);
    for _ in 0..rng.below(3) {
        let at = text.len().saturating_sub(1 + rng.below(4));
        if at < text.len() {
            text[at] = *rng.pick(b"a \x80\xc3\xe6\"\n;1");
        }
    }
    text
}

/// A text with a quote too many or too few: one that is there left out or doubled, or one put in.
pub fn with_quote(rng: &mut Rng, mut text: Vec<u8>) -> Vec<u8> {
    let quotes: Vec<usize> = (0..text.len()).filter(|i| text[*i] == b'"').collect();
    if quotes.is_empty() || rng.once_in(3) {
        text.insert(rng.below(text.len() + 1), b'"');
        return text;
    }
    let at = *rng.pick(&quotes);
    match rng.below(2) {
        0 => drop(text.remove(at)),
        _ => text.insert(at, b'"'),
    }
    text
}
