//! Random sections: words in the order of 01's section grammar, laid out at random, and damage to them.
use crate::lexer::one_of;
use crate::random::Rng;
use crate::words::{CLEAN_LITERALS, KEYWORDS, LITERALS, MARKS, NAMES};

pub type Words = Vec<String>;

pub fn word(out: &mut Words, w: &str) {
    out.push(w.to_string());
}

pub fn one(out: &mut Words, rng: &mut Rng, from: &str) {
    word(out, one_of(rng, from));
}

fn ident(out: &mut Words, rng: &mut Rng) {
    one(out, rng, NAMES);
}

fn name(out: &mut Words, rng: &mut Rng) {
    if rng.once_in(3) {
        one(out, rng, KEYWORDS)
    } else {
        ident(out, rng)
    }
}

fn subscripts(out: &mut Words, rng: &mut Rng) {
    while rng.once_in(3) {
        word(out, "[");
        match rng.below(5) {
            0 => {}
            1 => ident(out, rng),
            2 => word(out, "1"),
            3 => out.extend(["1", ".."].map(String::from)),
            _ => out.extend(["1", "..", "3"].map(String::from)),
        }
        word(out, "]");
    }
}

fn path(out: &mut Words, rng: &mut Rng) {
    if rng.once_in(6) {
        return;
    }
    ident(out, rng);
    subscripts(out, rng);
    while rng.once_in(2) {
        word(out, ".");
        if !rng.once_in(6) {
            ident(out, rng);
            subscripts(out, rng);
        }
    }
}

fn binding(out: &mut Words, rng: &mut Rng, depth: usize, first: bool) {
    if first {
        name(out, rng);
    } else if rng.once_in(4) {
        one(out, rng, "; ) , ( => 0x1 \"a\" { - 1");
    } else {
        name(out, rng);
    }
    word(out, "=>");
    if rng.once_in(3) {
        one(out, rng, "in out provides requires");
        if rng.once_in(3) {
            word(out, "out");
        }
    }
    if rng.once_in(2) {
        one(
            out,
            rng,
            "data event bus feature port access virtual thread subprogram system process processor memory device abstract",
        );
        if rng.once_in(2) {
            one(out, rng, "port data access group bus processor");
        }
        if rng.once_in(4) {
            word(out, "port");
        }
    }
    if rng.once_in(2) {
        classifier(out, rng, depth);
    }
}

fn classifier(out: &mut Words, rng: &mut Rng, depth: usize) {
    name(out, rng);
    while rng.once_in(3) {
        word(out, "::");
        name(out, rng);
    }
    if rng.once_in(3) {
        word(out, ".");
        name(out, rng);
    }
    if depth > 0 && rng.once_in(2) {
        word(out, "(");
        if !rng.once_in(6) {
            binding(out, rng, depth - 1, true);
            while rng.once_in(3) {
                word(out, ",");
                binding(out, rng, depth - 1, false);
            }
        }
        word(out, ")");
    }
}

fn record(out: &mut Words, rng: &mut Rng, depth: usize) {
    word(out, "[");
    while rng.once_in(2) {
        ident(out, rng);
        word(out, "=>");
        expression(out, rng, depth);
        word(out, ";");
    }
    word(out, "]");
}

fn list(out: &mut Words, rng: &mut Rng, depth: usize) {
    word(out, "(");
    if !rng.once_in(6) {
        expression(out, rng, depth);
        while rng.once_in(3) {
            word(out, ",");
            expression(out, rng, depth);
        }
    }
    word(out, ")");
}

fn constant(out: &mut Words, rng: &mut Rng) {
    ident(out, rng);
    while rng.once_in(3) {
        word(out, "::");
        if !rng.once_in(5) {
            name(out, rng);
        }
    }
}

fn call(out: &mut Words, rng: &mut Rng, depth: usize) {
    match rng.below(3) {
        0 => {
            out.extend(["classifier", "("].map(String::from));
            if !rng.once_in(5) {
                classifier(out, rng, depth);
            }
        }
        1 => {
            out.extend(["reference", "("].map(String::from));
            path(out, rng);
        }
        _ => {
            out.extend(["compute", "("].map(String::from));
            if !rng.once_in(4) {
                ident(out, rng);
            }
        }
    }
    word(out, ")");
}

pub fn operand(out: &mut Words, rng: &mut Rng, depth: usize) {
    let deep = depth.saturating_sub(1);
    match rng.below(if depth == 0 { 6 } else { 12 }) {
        0 | 1 => {
            let from = if rng.once_in(30) { LITERALS } else { CLEAN_LITERALS };
            one(out, rng, from);
            if rng.once_in(3) {
                ident(out, rng);
            }
        }
        2 => one(out, rng, "true false"),
        3 | 4 => constant(out, rng),
        5 | 6 => call(out, rng, deep),
        7 => {
            word(out, "not");
            expression(out, rng, deep);
        }
        8 => {
            one(out, rng, "+ -");
            operand(out, rng, deep);
        }
        9 => record(out, rng, deep),
        _ => list(out, rng, deep),
    }
}

fn sum(out: &mut Words, rng: &mut Rng, depth: usize) {
    operand(out, rng, depth);
    while rng.once_in(4) {
        one(out, rng, "+ - * /");
        operand(out, rng, depth);
    }
}

fn expression(out: &mut Words, rng: &mut Rng, depth: usize) {
    sum(out, rng, depth);
    if rng.once_in(4) {
        word(out, "..");
        sum(out, rng, depth);
        if rng.once_in(3) {
            word(out, "delta");
            sum(out, rng, depth);
        }
    }
}

pub fn modes(out: &mut Words, rng: &mut Rng) {
    out.extend(["in", "modes", "("].map(String::from));
    if !rng.once_in(5) {
        name(out, rng);
        while rng.once_in(2) {
            one(out, rng, "=> ,");
            if !rng.once_in(5) {
                name(out, rng);
            }
        }
    }
    word(out, ")");
}

pub fn reference(out: &mut Words, rng: &mut Rng) {
    ident(out, rng);
    if rng.once_in(3) {
        word(out, "::");
        if rng.once_in(20) {
            one(out, rng, KEYWORDS);
            word(out, ":");
        } else {
            ident(out, rng);
        }
    }
}

fn values(out: &mut Words, rng: &mut Rng, depth: usize) {
    loop {
        expression(out, rng, depth);
        if rng.once_in(5) {
            modes(out, rng);
        }
        if !rng.once_in(5) {
            return;
        }
        word(out, ",");
    }
}

pub fn applies(out: &mut Words, rng: &mut Rng) {
    out.extend(["applies", "to"].map(String::from));
    path(out, rng);
    while rng.once_in(3) {
        word(out, ",");
        path(out, rng);
    }
}

fn in_binding(out: &mut Words, rng: &mut Rng, depth: usize) {
    out.extend(["in", "binding", "("].map(String::from));
    if !rng.once_in(4) {
        classifier(out, rng, depth);
    }
    word(out, ")");
}

fn association(out: &mut Words, rng: &mut Rng, depth: usize) {
    if rng.once_in(30) {
        one(out, rng, KEYWORDS);
        word(out, ":");
        return;
    }
    reference(out, rng);
    word(out, if rng.once_in(6) { "+=>" } else { "=>" });
    if rng.once_in(8) {
        word(out, "constant");
    }
    values(out, rng, depth);
    if rng.once_in(5) {
        applies(out, rng);
    }
    if rng.once_in(8) {
        in_binding(out, rng, depth);
    }
    word(out, ";");
}

/// The words of a section that is nearly always clean.
pub fn section(rng: &mut Rng) -> Words {
    let mut out = Words::new();
    word(&mut out, "properties");
    if rng.once_in(20) {
        out.extend(["none", ";"].map(String::from));
        return out;
    }
    for _ in 0..rng.below(4) {
        let depth = rng.below(4);
        association(&mut out, rng, depth);
    }
    out
}

fn any_word(out: &mut Words, rng: &mut Rng) {
    match rng.below(4) {
        0 => one(out, rng, KEYWORDS),
        1 => one(out, rng, MARKS),
        2 => one(out, rng, LITERALS),
        _ => one(out, rng, "a ( ) [ ] => ; , :: . .. in modes binding not + - * applies to delta none properties virtual : 1"),
    }
}

/// Words at random, after `properties` mostly.
pub fn soup(rng: &mut Rng) -> Words {
    let mut out = Words::new();
    if !rng.once_in(10) {
        word(&mut out, "properties");
    }
    if rng.once_in(2) {
        out.extend(["a", "=>"].map(String::from));
    }
    for _ in 0..rng.below(12) {
        any_word(&mut out, rng);
    }
    out
}

/// Words left out, doubled, put in, changed, exchanged or cut off.
pub fn damage(words: &mut Words, rng: &mut Rng) {
    for _ in 0..1 + rng.below(3) {
        let n = words.len();
        if n == 0 {
            return;
        }
        let at = rng.below(n);
        match rng.below(6) {
            0 => drop(words.remove(at)),
            1 => words.insert(at, words[at].clone()),
            2 => words.truncate(at + 1),
            3 => words.swap(at, rng.below(n)),
            _ => {
                let mut new = Words::new();
                any_word(&mut new, rng);
                if rng.once_in(2) {
                    words[at] = new.remove(0)
                } else {
                    words.insert(at, new.remove(0))
                }
            }
        }
    }
}

/// An opener of one of six sorts, with what has to stand behind it, and the words that end it.
fn opener(out: &mut Words, rng: &mut Rng, sort: usize) -> &'static [&'static str] {
    match sort {
        0 => word(out, "+"),
        1 => word(out, "-"),
        2 => word(out, "not"),
        3 => {
            word(out, "(");
            if rng.once_in(12) {
                out.extend(["(", "1", ")", ","].map(String::from));
            }
            return &[")"];
        }
        4 => {
            word(out, "[");
            if rng.once_in(12) {
                out.extend(["q", "=>", "not", "-", "1", ";"].map(String::from));
            }
            out.extend(["r", "=>"].map(String::from));
            return &[";", "]"];
        }
        _ => {
            out.extend(["(", "b", "=>", "c"].map(String::from));
            return &[")"];
        }
    }
    &[]
}

/// Nested openers around the limit of 64, in all their sorts, with a part of their ends.
pub fn openers(rng: &mut Rng) -> Words {
    let mut out: Words = ["properties", "a", "=>"].map(String::from).to_vec();
    let mut ends: Vec<&[&str]> = Vec::new();
    let sort = rng.below(7);
    let in_bindings = sort == 5;
    if in_bindings {
        out.extend(["classifier", "(", "c"].map(String::from));
        ends.push(&[")"]);
    }
    for _ in 0..60 + rng.below(8) {
        let this = if sort < 6 { sort } else { rng.below(5) };
        ends.push(opener(&mut out, rng, this));
    }
    if !in_bindings {
        word(&mut out, "1");
    }
    let cut = if rng.once_in(3) { rng.below(ends.len() + 1) } else { 0 };
    for end in ends.iter().rev().skip(cut) {
        out.extend(end.iter().map(|w| w.to_string()));
    }
    word(&mut out, ";");
    if rng.once_in(3) {
        out.extend(["b", "=>", "(", "1", ")", ";"].map(String::from));
    }
    out
}

/// A section with nearly as many events as there may be, or more.
pub fn many_events(rng: &mut Rng) -> Vec<u8> {
    let (piece, events) = *rng.pick(&[(",1", 4), ("+1", 5), (",a", 4), ("..1;a=>1", 12), (",0x1", 5), (",", 2), (":", 0)]);
    let mut text = b"properties a=>1".to_vec();
    let near = if events == 0 { 10 } else { 32_768 / events };
    let count = (near + rng.below(9)).saturating_sub(6);
    for _ in 0..count {
        text.extend_from_slice(piece.as_bytes());
    }
    text.extend_from_slice(b";");
    text
}

fn is_word_byte(b: u8) -> bool {
    b.is_ascii_alphanumeric() || b == b'_'
}

/// Words as a text: between two of them nothing where they stay apart, or spaces, line ends and comments; letters in any case.
pub fn layout(words: &[String], rng: &mut Rng) -> Vec<u8> {
    let mut text = Vec::new();
    let tight = rng.once_in(2);
    let shout = rng.once_in(4);
    if rng.once_in(6) {
        text.extend_from_slice(b" -- first\n");
    }
    for w in words {
        let touches = text.last().is_some_and(|b| is_word_byte(*b)) && is_word_byte(w.as_bytes()[0]);
        if touches || !tight || rng.once_in(8) {
            let gap: &[u8] = match rng.below(12) {
                0 => b"\n  ",
                1 => b"\t",
                2 => b" -- x => y;\n",
                3 => b"\r\n",
                _ => b" ",
            };
            text.extend_from_slice(gap);
        }
        if shout && rng.once_in(2) {
            text.extend(w.bytes().map(|b| if rng.once_in(2) { b.to_ascii_uppercase() } else { b }));
        } else {
            text.extend_from_slice(w.as_bytes());
        }
    }
    text
}
